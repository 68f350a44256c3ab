#include "ch.h"
#include "hal.h"

typedef struct { uint32_t frequency; void (*callback)(void *); } GPTConfig;
typedef struct { const char *name; void (*run)(int argc); } ShellCommand;
void gptStart(void *drv, const GPTConfig *cfg);
void palToggleLine(uint32_t line);
semaphore_t wake;
virtual_timer_t vt;
uint32_t wa1[128];
uint32_t wa2[128];
int driver;
void gpt_cb(void *drv) {
  chSysLockFromISR();
  chSemSignalI(&wake);
  chSysUnlockFromISR();
}
const GPTConfig cfg = { 1000, gpt_cb };
void tick(void *p) {
  palToggleLine(2);
  chSysLockFromISR();
  chVTSetI(&vt, 500, tick, p);
  chSysUnlockFromISR();
}
void cmd_led(int argc) { palToggleLine(argc); }
const ShellCommand commands[] = { { "led", cmd_led }, { 0, 0 } };
void blinker(void *arg) {
  chRegSetThreadName("blinker");
  while (1) { chSemWait(&wake); palToggleLine(1); }
}
void shell(void *arg) {
  int i;
  while (1) {
    for (i = 0; commands[i].name; i++) commands[i].run(i);
    chThdSleep(50);
  }
}
int main(void) {
  chSysInit();
  chSemObjectInit(&wake, 0);
  chVTObjectInit(&vt);
  chThdCreateStatic(wa1, sizeof wa1, 129, blinker, 0);
  chThdCreateStatic(wa2, sizeof wa2, 128, shell, 0);
  gptStart(&driver, &cfg);
  chVTSet(&vt, 500, tick, 0);
  while (1) chThdSleep(1000);
}
