#include "sensor.h"

static uint32_t before;

/* the sensor's value, smoothed; makes no kernel call, so it may be called from anywhere */
msg_t sensor_sample(void) {
  before = (3U * before + palReadPort(PORT_SENSOR)) / 4U;
  return (msg_t)before;
}
