void chSysInit(void);
int main(void) {
  chSysInit();
}
