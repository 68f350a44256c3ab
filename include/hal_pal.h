/* Ports, pads and lines, for the checker. A port is a number here, so that lines are constants. */
#ifndef HAL_PAL_H
#define HAL_PAL_H

#include "osal.h"

typedef uint32_t ioportmask_t;
typedef uint32_t iomode_t;
typedef uint32_t ioline_t;
typedef uint32_t ioeventmode_t;
typedef uint32_t ioportid_t;
typedef uint32_t iopadid_t;
typedef void (*palcallback_t)(void *);
typedef struct {
  palcallback_t cb;
  void *arg;
} palevent_t;
typedef struct {
  ioportid_t portid;
  ioportmask_t mask;
  uint32_t offset;
} IOBus;

#define GPIOA 1073872896U
#define GPIOB 1073873920U
#define GPIOC 1073874944U
#define GPIOD 1073875968U
#define GPIOE 1073876992U
#define GPIOF 1073878016U
#define GPIOG 1073879040U
#define GPIOH 1073880064U
#define GPIOI 1073881088U
#define GPIOJ 1073882112U
#define GPIOK 1073883136U
#define IOPORT1 GPIOA
#define IOPORT2 GPIOB
#define IOPORT3 GPIOC
#define IOPORT4 GPIOD
#define IOPORT5 GPIOE

#define PAL_IOPORTS_WIDTH 16U
#define PAL_WHOLE_PORT 65535U
#define PAL_LOW 0U
#define PAL_HIGH 1U
#define PAL_NOLINE 0U
#define PAL_LINE(port, pad) ((ioline_t)(port) | (ioline_t)(pad))
#define PAL_PORT(line) ((ioportid_t)((line) & 4294967280U))
#define PAL_PAD(line) ((line) & 15U)
#define PAL_PORT_BIT(n) ((ioportmask_t)1U << (n))
#define PAL_GROUP_MASK(width) (((ioportmask_t)1U << (width)) - 1U)

#define PAL_MODE_RESET 0U
#define PAL_MODE_UNCONNECTED 1U
#define PAL_MODE_INPUT 2U
#define PAL_MODE_INPUT_PULLUP 3U
#define PAL_MODE_INPUT_PULLDOWN 4U
#define PAL_MODE_INPUT_ANALOG 5U
#define PAL_MODE_OUTPUT_PUSHPULL 6U
#define PAL_MODE_OUTPUT_OPENDRAIN 7U
#define PAL_MODE_ALTERNATE(n) (16U + ((n) << 8))
#define PAL_STM32_MODE_INPUT 0U
#define PAL_STM32_MODE_OUTPUT 65536U
#define PAL_STM32_MODE_ALTERNATE 131072U
#define PAL_STM32_MODE_ANALOG 196608U
#define PAL_STM32_ALTERNATE(n) ((n) << 8)
#define PAL_STM32_OTYPE_PUSHPULL 0U
#define PAL_STM32_OTYPE_OPENDRAIN 262144U
#define PAL_STM32_OSPEED_LOWEST 0U
#define PAL_STM32_OSPEED_LOW 0U
#define PAL_STM32_OSPEED_MID1 524288U
#define PAL_STM32_OSPEED_MID2 1048576U
#define PAL_STM32_OSPEED_HIGH 1572864U
#define PAL_STM32_OSPEED_HIGHEST 1572864U
#define PAL_STM32_PUPDR_FLOATING 0U
#define PAL_STM32_PUPDR_PULLUP 2097152U
#define PAL_STM32_PUPDR_PULLDOWN 4194304U

#define PAL_EVENT_MODE_DISABLED 0U
#define PAL_EVENT_MODE_RISING_EDGE 1U
#define PAL_EVENT_MODE_FALLING_EDGE 2U
#define PAL_EVENT_MODE_BOTH_EDGES 3U

/* No kernel call. */
ioportmask_t palReadPort(ioportid_t);
ioportmask_t palReadLatch(ioportid_t);
void palWritePort(ioportid_t, ioportmask_t);
void palSetPort(ioportid_t, ioportmask_t);
void palClearPort(ioportid_t, ioportmask_t);
void palTogglePort(ioportid_t, ioportmask_t);
ioportmask_t palReadGroup(ioportid_t, ioportmask_t, uint32_t);
void palWriteGroup(ioportid_t, ioportmask_t, uint32_t, ioportmask_t);
void palSetGroupMode(ioportid_t, ioportmask_t, uint32_t, iomode_t);
uint32_t palReadPad(ioportid_t, iopadid_t);
void palWritePad(ioportid_t, iopadid_t, uint32_t);
void palSetPad(ioportid_t, iopadid_t);
void palClearPad(ioportid_t, iopadid_t);
void palTogglePad(ioportid_t, iopadid_t);
void palSetPadMode(ioportid_t, iopadid_t, iomode_t);
uint32_t palReadLine(ioline_t);
void palWriteLine(ioline_t, uint32_t);
void palSetLine(ioline_t);
void palClearLine(ioline_t);
void palToggleLine(ioline_t);
void palSetLineMode(ioline_t, iomode_t);
ioportmask_t palReadBus(const IOBus *);
void palWriteBus(const IOBus *, ioportmask_t);
void palSetBusMode(const IOBus *, iomode_t);

/* Normal class. */
void palEnablePadEvent(ioportid_t, iopadid_t, ioeventmode_t);
void palDisablePadEvent(ioportid_t, iopadid_t);
void palEnableLineEvent(ioline_t, ioeventmode_t);
void palDisableLineEvent(ioline_t);
msg_t palWaitPadTimeout(ioportid_t, iopadid_t, sysinterval_t);
msg_t palWaitLineTimeout(ioline_t, sysinterval_t);
/* I-class. */
void palEnablePadEventI(ioportid_t, iopadid_t, ioeventmode_t);
void palDisablePadEventI(ioportid_t, iopadid_t);
void palEnableLineEventI(ioline_t, ioeventmode_t);
void palDisableLineEventI(ioline_t);
/* S-class. */
msg_t palWaitPadTimeoutS(ioportid_t, iopadid_t, sysinterval_t);
msg_t palWaitLineTimeoutS(ioline_t, sysinterval_t);
/* X-class. */
bool palIsPadEventEnabledX(ioportid_t, iopadid_t);
bool palIsLineEventEnabledX(ioline_t);

/* The handler of the lines calls the member `cb` of a palevent_t; all lines have one here. */
extern palevent_t rtcheck_palevent;
#define palSetPadCallbackI(port, pad, callback, argument) \
  do { \
    (void)(port); \
    (void)(pad); \
    chDbgCheckClassI(); \
    rtcheck_palevent.cb = (callback); \
    rtcheck_palevent.arg = (argument); \
  } while (0)
#define palSetPadCallback(port, pad, callback, argument) \
  do { \
    chSysLock(); \
    palSetPadCallbackI(port, pad, callback, argument); \
    chSysUnlock(); \
  } while (0)
#define palSetLineCallbackI(line, callback, argument) palSetPadCallbackI(line, 0U, callback, argument)
#define palSetLineCallback(line, callback, argument) palSetPadCallback(line, 0U, callback, argument)

#endif
