#include "ch.h"

int main(void) {
  chSysInit();
  chSysLock();
  chSysUnlock();
  chSysSuspend();
  chSysEnable();
}
