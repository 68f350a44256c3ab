/*
 * The shell, for the checker. Its thread has a body here: in its loop it reads a line and calls any of the commands,
 * with the state in which the shell's own code calls them.
 */
#ifndef SHELL_H
#define SHELL_H

#include "hal_streams.h"

#ifdef __has_include
#if __has_include("shellconf.h")
#include "shellconf.h"
#endif
#endif

typedef void (*shellcmd_t)(BaseSequentialStream *, int, char *[]);
typedef struct {
  const char *sc_name;
  shellcmd_t sc_function;
} ShellCommand;
typedef struct {
  BaseSequentialStream *sc_channel;
  const ShellCommand *sc_commands;
#if SHELL_USE_HISTORY == TRUE
  char *sc_histbuf;
  const int sc_histsize;
#endif
} ShellConfig;
extern event_source_t shell_terminated;

/* Normal class: the shell's own line and its arguments, whose number is the result. */
int rtcheck_shellArguments(BaseSequentialStream *, char *[]);
bool shellGetLine(ShellConfig *, char *, unsigned int, void *);
void shellUsage(BaseSequentialStream *, const char *);

#define shellInit() chEvtObjectInit(&shell_terminated)
static inline void shellExit(msg_t msg) {
  chSysLock();
  chEvtBroadcastI(&shell_terminated);
  chThdExitS(msg);
}
static inline THD_FUNCTION(shellThread, p) {
  const ShellConfig *config = (const ShellConfig *)p;
  char *arguments[5];
  uint32_t command;
  int count;
  chRegSetThreadName("shell");
  while (!chThdShouldTerminateX()) {
    count = rtcheck_shellArguments(config->sc_channel, arguments);
    for (command = 0U; config->sc_commands[command].sc_name != NULL; command++) {
      config->sc_commands[command].sc_function(config->sc_channel, count, arguments);
    }
  }
  shellExit(MSG_OK);
}

#endif
