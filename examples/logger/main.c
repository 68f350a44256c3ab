/*
 * A logger: a virtual timer puts samples into a mailbox, a button's line tells an event, and a thread writes both to
 * a serial port.
 */
#include "ch.h"
#include "hal.h"
#include "log.h"
#include "sensor.h"

#define BUTTON_EVENT 0
#define LEVEL_EVENT 1

static msg_t sample_buffer[8];
static MAILBOX_DECL(samples, sample_buffer, 8);
static EVENTSOURCE_DECL(button);
static virtual_timer_t sampler;
static uint32_t lost;

/* called by the line's handler */
static void on_button(void *arg) {
  (void)arg;
  chSysLockFromISR();
  chEvtBroadcastI(&button);
  chSysUnlockFromISR();
}

/* called by the system timer's handler; sets itself anew */
static void on_sample(void *arg) {
  chSysLockFromISR();
  if (chMBPostI(&samples, sensor_sample()) != MSG_OK) {
    lost++;
  }
  chVTSetI(&sampler, TIME_MS2I(10), on_sample, arg);
  chSysUnlockFromISR();
}

static void write_samples(BaseSequentialStream *out) {
  msg_t sample;
  while (chMBFetchTimeout(&samples, &sample, TIME_IMMEDIATE) == MSG_OK) {
    log_number(out, (uint32_t)sample);
  }
}

static THD_WORKING_AREA(writer_area, 512);
static THD_FUNCTION(writer, arg) {
  BaseSequentialStream *out = (BaseSequentialStream *)arg;
  event_listener_t pressed, changed;
  chRegSetThreadName("writer");
  chEvtRegister(&button, &pressed, BUTTON_EVENT);
  chEvtRegister(&log_level_changed, &changed, LEVEL_EVENT);
  while (!chThdShouldTerminateX()) {
    eventmask_t events = chEvtWaitAnyTimeout(ALL_EVENTS, TIME_MS2I(250));
    if ((events & EVENT_MASK(BUTTON_EVENT)) != 0U) {
      log_set_level(log_level() + 1U);
    }
    if ((events & EVENT_MASK(LEVEL_EVENT)) != 0U) {
      log_text(out, "another level");
    }
    write_samples(out);
  }
  chEvtUnregister(&log_level_changed, &changed);
  chEvtUnregister(&button, &pressed);
}

int main(void) {
  halInit();
  chSysInit();

  sdStart(&SD2, NULL);
  palEnableLineEvent(LINE_BUTTON, PAL_EVENT_MODE_RISING_EDGE);
  palSetLineCallback(LINE_BUTTON, on_button, NULL);
  chVTObjectInit(&sampler);
  chVTSet(&sampler, TIME_MS2I(10), on_sample, NULL);
  chThdCreateStatic(writer_area, sizeof writer_area, NORMALPRIO, writer, (void *)&SD2);

  while (true) {
    chThdSleepMilliseconds(1000);
  }
}
