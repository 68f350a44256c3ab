#include "hal.h"
#include "led.h"

static void pressed(void *arg) {
  palToggleLine(*(const ioline_t *)arg);
}

void led_start(void) {
  static const ioline_t line = LED_LINE;
  palSetLineMode(line, PAL_MODE_OUTPUT_PUSHPULL);
  palSetLineCallback(line, pressed, (void *)&line);
}
