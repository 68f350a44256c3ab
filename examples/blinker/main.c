/*
 * A blinker: the callback of a hardware timer signals a thread, which toggles the LED, and a shell changes how often.
 */
#include <stdlib.h>

#include "ch.h"
#include "hal.h"
#include "chprintf.h"
#include "shell.h"

static BSEMAPHORE_DECL(due, true);
static MUTEX_DECL(counting);
static uint32_t blinks;

/* called by the timer's handler */
static void on_timer(GPTDriver *driver) {
  (void)driver;
  chSysLockFromISR();
  chBSemSignalI(&due);
  chSysUnlockFromISR();
}

static const GPTConfig timer = {
  .frequency = 10000U,
  .callback = on_timer,
  .cr2 = 0U,
  .dier = 0U
};

static void set_interval(uint32_t ms) {
  chSysLock();
  gptChangeIntervalI(&GPTD4, ms * 10U);
  chSysUnlock();
}

static THD_WORKING_AREA(blinker_area, 256);
static THD_FUNCTION(blinker, arg) {
  (void)arg;
  chRegSetThreadName("blinker");
  while (true) {
    chBSemWait(&due);
    palToggleLine(LINE_LED);
    chMtxLock(&counting);
    blinks++;
    chMtxUnlock(&counting);
  }
}

static void cmd_interval(BaseSequentialStream *out, int argc, char *argv[]) {
  if (argc != 1) {
    chprintf(out, "usage: interval MILLISECONDS\r\n");
    return;
  }
  set_interval((uint32_t)atoi(argv[0]));
}

static void cmd_count(BaseSequentialStream *out, int argc, char *argv[]) {
  (void)argc;
  (void)argv;
  chMtxLock(&counting);
  chprintf(out, "%u blinks\r\n", (unsigned int)blinks);
  chMtxUnlock(&counting);
}

static const ShellCommand commands[] = {
  {"interval", cmd_interval},
  {"count", cmd_count},
  {NULL, NULL}
};
static const ShellConfig shell = {(BaseSequentialStream *)&SD2, commands};

int main(void) {
  halInit();
  chSysInit();

  sdStart(&SD2, NULL);
  gptStart(&GPTD4, &timer);
  gptStartContinuous(&GPTD4, 5000U);
  shellInit();
  chThdCreateStatic(blinker_area, sizeof blinker_area, NORMALPRIO + 1, blinker, NULL);

  while (true) {
    thread_t *running = chThdCreateFromHeap(NULL, THD_WORKING_AREA_SIZE(2048), "shell", NORMALPRIO,
                                            shellThread, (void *)&shell);
    chThdWait(running);
    chThdSleepMilliseconds(500);
  }
}
