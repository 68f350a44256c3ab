void chSysInit(void);
void chSysLock(void);
int main(void) {
  chSysInit();
  chSysLock();
  chSysLock();
}
