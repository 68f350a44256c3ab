void chSysInit(void);
void chSysLock(void);
void chSysUnlock(void);
int main(void) {
  chSysInit();
  chSysLock();
  chSysUnlock();
}
