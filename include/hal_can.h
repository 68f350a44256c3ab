/*
 * CAN, for the checker. The parts of a frame that share their bytes in the driver are members of their own here:
 * their values aren't followed.
 */
#ifndef HAL_CAN_H
#define HAL_CAN_H

#include "osal.h"

#define CAN_LIMIT_WARNING 1U
#define CAN_LIMIT_ERROR 2U
#define CAN_BUS_OFF_ERROR 4U
#define CAN_FRAMING_ERROR 8U
#define CAN_OVERFLOW_ERROR 16U
#define CAN_ANY_MAILBOX 0U
#define CAN_IDE_STD 0U
#define CAN_IDE_EXT 1U
#define CAN_RTR_DATA 0U
#define CAN_RTR_REMOTE 1U
#define CAN_MCR_INRQ 1U
#define CAN_MCR_SLEEP 2U
#define CAN_MCR_TXFP 4U
#define CAN_MCR_RFLM 8U
#define CAN_MCR_NART 16U
#define CAN_MCR_AWUM 32U
#define CAN_MCR_ABOM 64U
#define CAN_BTR_BRP(n) (n)
#define CAN_BTR_TS1(n) ((n) << 16)
#define CAN_BTR_TS2(n) ((n) << 20)
#define CAN_BTR_SJW(n) ((n) << 24)
#define CAN_BTR_LBKM 1073741824U

typedef enum {
  CAN_UNINIT = 0,
  CAN_STOP = 1,
  CAN_STARTING = 2,
  CAN_STOPPING = 3,
  CAN_READY = 4,
  CAN_SLEEP = 5
} canstate_t;
typedef uint32_t canmbx_t;
typedef struct {
  uint8_t DLC;
  uint8_t RTR;
  uint8_t IDE;
  uint32_t SID;
  uint32_t EID;
  uint8_t data8[8];
  uint16_t data16[4];
  uint32_t data32[2];
} CANTxFrame;
typedef struct {
  uint8_t FMI;
  uint16_t TIME;
  uint8_t DLC;
  uint8_t RTR;
  uint8_t IDE;
  uint32_t SID;
  uint32_t EID;
  uint8_t data8[8];
  uint16_t data16[4];
  uint32_t data32[2];
} CANRxFrame;
typedef struct {
  uint32_t filter;
  uint32_t mode;
  uint32_t scale;
  uint32_t assignment;
  uint32_t register1;
  uint32_t register2;
} CANFilter;
typedef struct {
  uint32_t mcr;
  uint32_t btr;
} CANConfig;
typedef struct CANDriver CANDriver;
typedef void (*can_callback_t)(CANDriver *, uint32_t);
/* Its handlers call the members with _cb where CAN_ENFORCE_USE_CALLBACKS is set, and else tell the event sources. */
struct CANDriver {
  canstate_t state;
  const CANConfig *config;
  event_source_t rxfull_event;
  event_source_t txempty_event;
  event_source_t error_event;
  event_source_t sleep_event;
  event_source_t wakeup_event;
  can_callback_t rxfull_cb;
  can_callback_t txempty_cb;
  can_callback_t error_cb;
  can_callback_t wakeup_cb;
};
extern CANDriver CAND1, CAND2, CAND3;

#define CAN_MAILBOX_TO_MASK(mailbox) (1U << ((mailbox) - 1U))
#define canTransmit(driver, mailbox, frame, time) canTransmitTimeout(driver, mailbox, frame, time)
#define canReceive(driver, mailbox, frame, time) canReceiveTimeout(driver, mailbox, frame, time)

/* Normal class. */
void canStart(CANDriver *, const CANConfig *);
void canStop(CANDriver *);
msg_t canTransmitTimeout(CANDriver *, canmbx_t, const CANTxFrame *, sysinterval_t);
msg_t canReceiveTimeout(CANDriver *, canmbx_t, CANRxFrame *, sysinterval_t);
void canSleep(CANDriver *);
void canWakeup(CANDriver *);
/* I-class. */
bool canTryTransmitI(CANDriver *, canmbx_t, const CANTxFrame *);
bool canTryReceiveI(CANDriver *, canmbx_t, CANRxFrame *);
/* X-class. */
void canTryAbortX(CANDriver *, canmbx_t);
/* No kernel call. */
void canSTM32SetFilters(CANDriver *, uint32_t, uint32_t, const CANFilter *);

#endif
