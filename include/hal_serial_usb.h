/* Serial ports over USB, for the checker. */
#ifndef HAL_SERIAL_USB_H
#define HAL_SERIAL_USB_H

#include "hal_streams.h"
#include "hal_usb.h"

#define CDC_SET_LINE_CODING 32U
#define CDC_GET_LINE_CODING 33U
#define CDC_SET_CONTROL_LINE_STATE 34U

typedef enum { SDU_UNINIT = 0, SDU_STOP = 1, SDU_READY = 2 } sdustate_t;
typedef struct {
  USBDriver *usbp;
  usbep_t bulk_in;
  usbep_t bulk_out;
  usbep_t int_in;
} SerialUSBConfig;
typedef struct SerialUSBDriver {
  uint32_t o[4];
  event_source_t event;
  sdustate_t state;
  const SerialUSBConfig *config;
} SerialUSBDriver;

/* Normal class. */
void sduStart(SerialUSBDriver *, const SerialUSBConfig *);
void sduStop(SerialUSBDriver *);
/* I-class that may wake. */
void sduSuspendHookI(SerialUSBDriver *);
void sduWakeupHookI(SerialUSBDriver *);
void sduConfigureHookI(SerialUSBDriver *);
void sduSOFHookI(SerialUSBDriver *);
/* X-class. */
void sduObjectInit(SerialUSBDriver *);
/* No kernel call. */
bool sduRequestsHook(USBDriver *);

/* What an endpoint's configuration names: each tells of its data inside a handler's critical section. */
static inline void rtcheck_sdu_told(void *params) {
  SerialUSBDriver *driver = (SerialUSBDriver *)params;
  if (driver != NULL) {
    chSysLockFromISR();
    chnAddFlagsI(driver, CHN_INPUT_AVAILABLE);
    chSysUnlockFromISR();
  }
}
static inline void sduDataTransmitted(USBDriver *usbp, usbep_t ep) {
  rtcheck_sdu_told(usbp->in_params[ep - 1U]);
}
static inline void sduDataReceived(USBDriver *usbp, usbep_t ep) {
  rtcheck_sdu_told(usbp->out_params[ep - 1U]);
}
static inline void sduInterruptTransmitted(USBDriver *usbp, usbep_t ep) {
  (void)usbp;
  (void)ep;
}

#endif
