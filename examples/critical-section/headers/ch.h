/* The kernel's header with the calls that rtcheck reads today. */
#ifndef CH_H
#define CH_H

void chSysInit(void);
void chSysDisable(void);
void chSysSuspend(void);
void chSysEnable(void);
void chSysLock(void);
void chSysUnlock(void);

#endif
