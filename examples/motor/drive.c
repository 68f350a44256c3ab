#include "ch.h"
#include "drive.h"

static const PWMConfig config = {
  .frequency = 1000000U,
  .period = 1000U,
  .channels = {{PWM_OUTPUT_ACTIVE_HIGH, NULL}}
};
static int32_t wanted;
static int32_t width;

void drive_start(void) {
  pwmStart(&PWMD3, &config);
  palSetLine(LINE_BRIDGE);
}

void drive_stop(void) {
  pwmDisableChannel(&PWMD3, 0U);
}

void drive_set(int32_t speed) {
  syssts_t status;
  status = chSysGetStatusAndLockX();
  wanted = speed;
  chSysRestoreStatusX(status);
}

void drive_step(int32_t speed) {
  chSysLock();
  width += (wanted - speed) / 4;
  if (width < 0) {
    width = 0;
  }
  pwmEnableChannelI(&PWMD3, 0U, (pwmcnt_t)width);
  chSysUnlock();
}
