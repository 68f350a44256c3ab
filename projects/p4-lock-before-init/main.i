void chSysInit(void); void chSysDisable(void); void chSysSuspend(void); void chSysEnable(void); void chSysLock(void); void chSysUnlock(void);
int main(void) {
chSysLock();
}