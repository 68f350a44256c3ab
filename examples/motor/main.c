/*
 * A motor loop: the comparator's fast handler opens the bridge at once, the encoder's handler tells the loop that a
 * new position is there, and the loop drives the motor.
 */
#include "ch.h"
#include "hal.h"
#include "drive.h"

static BSEMAPHORE_DECL(moved, true);
static BSEMAPHORE_DECL(stopped, true);
static volatile uint32_t position;
static volatile bool tripped;

/* above the kernel: it is never held up by a critical section, and makes no kernel call */
CH_FAST_IRQ_HANDLER(COMPARATOR_HANDLER) {
  palClearLine(LINE_BRIDGE);
  tripped = true;
}

OSAL_IRQ_HANDLER(ENCODER_HANDLER) {
  OSAL_IRQ_PROLOGUE();
  position = palReadPort(PORT_ENCODER);
  if (tripped) {
    drive_set(0);
  }
  osalSysLockFromISR();
  chBSemSignalI(&moved);
  osalSysUnlockFromISR();
  OSAL_IRQ_EPILOGUE();
}

static THD_WORKING_AREA(loop_area, 512);
static THD_FUNCTION(loop, arg) {
  uint32_t before = position;
  (void)arg;
  chRegSetThreadName("loop");
  while (!tripped) {
    if (chBSemWaitTimeout(&moved, TIME_MS2I(5)) == MSG_OK) {
      drive_step((int32_t)(position - before));
      before = position;
    }
  }
  drive_stop();
  chBSemSignal(&stopped);
}

int main(void) {
  halInit();
  chSysInit();

  drive_start();
  chThdCreateStatic(loop_area, sizeof loop_area, HIGHPRIO, loop, NULL);
  drive_set(100);
  chBSemWait(&stopped);
  while (true) {
    palToggleLine(LINE_BRIDGE + 1U);
    chThdSleepMilliseconds(100);
  }
}
