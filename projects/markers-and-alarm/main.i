# 1 "kernel.h"
void chSysInit(void);
void chSysLock(void);
# 10 "main.c"
int main(void) { /* begins */
  chSysInit();
  /* a
  b */ chSysLock();
# 3 "a é.c" 1 3
	chSysLock();
}
