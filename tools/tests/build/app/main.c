#include "ch.h"
#include "hal.h"
#include "chprintf.h"
#include "drivers/led.h"

#ifndef STM32F407xx
#error "no family of microcontrollers"
#endif

typedef struct {
  void (*on_done)(void *);
  void (*step)(void);
} job_t;

static const char *const name = NAME;
static void done(void *p) {
  (void)p;
}
static void step(void) {
}
static const job_t job = {done, step};

static void tick(GPTDriver *driver) {
  (void)driver;
}
static const GPTConfig config = {1000U, tick, 0U, 0U};

OSAL_IRQ_HANDLER(BOARD_TIMER_HANDLER) {
  OSAL_IRQ_PROLOGUE();
  own_acknowledge();
  OSAL_IRQ_EPILOGUE();
}

CH_FAST_IRQ_HANDLER(VectorA0) {
}

#if BOARD_HAS_BUTTON
CH_IRQ_HANDLER(VectorB0) {
}
#endif

void TIM3_IRQHandler(void)
{
}

int main(void) {
  halInit();
  chSysInit();
  gptStart(&GPTD1, &config);
  own_send(name, 1U);
  led_start();
  job.step();
  while (true) {
    chThdSleepMilliseconds(500);
  }
}
