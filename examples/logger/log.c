#include "ch.h"
#include "log.h"
#include "chprintf.h"

EVENTSOURCE_DECL(log_level_changed);
static MUTEX_DECL(port);
static uint32_t level;

void log_text(BaseSequentialStream *out, const char *text) {
  chMtxLock(&port);
  chprintf(out, "%s\r\n", text);
  chMtxUnlock(&port);
}

void log_number(BaseSequentialStream *out, uint32_t number) {
  chMtxLock(&port);
  chprintf(out, "%u\r\n", (unsigned int)number);
  chMtxUnlock(&port);
}

uint32_t log_level(void) {
  return level;
}

/* tells the listeners, and lets one of them run at once where it is more urgent */
void log_set_level(uint32_t to) {
  chDbgCheck(to < 100U);
  chSysLock();
  if (to == level) {
    chSysUnlock();
    return;
  }
  level = to;
  chEvtBroadcastI(&log_level_changed);
  chSchRescheduleS();
  chSysUnlock();
}
