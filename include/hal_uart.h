/* Serial ports without queues, for the checker. */
#ifndef HAL_UART_H
#define HAL_UART_H

#include "osal.h"

#define UART_NO_ERROR 0U
#define UART_PARITY_ERROR 4U
#define UART_FRAMING_ERROR 8U
#define UART_OVERRUN_ERROR 16U
#define UART_NOISE_ERROR 32U
#define UART_BREAK_DETECTED 64U

typedef enum { UART_UNINIT = 0, UART_STOP = 1, UART_READY = 2 } uartstate_t;
typedef enum { UART_TX_IDLE = 0, UART_TX_ACTIVE = 1, UART_TX_COMPLETE = 2 } uarttxstate_t;
typedef enum { UART_RX_IDLE = 0, UART_RX_ACTIVE = 1, UART_RX_COMPLETE = 2 } uartrxstate_t;
typedef uint32_t uartflags_t;
typedef struct UARTDriver UARTDriver;
typedef void (*uartcb_t)(UARTDriver *);
typedef void (*uartccb_t)(UARTDriver *, uint16_t);
typedef void (*uartecb_t)(UARTDriver *, uartflags_t);
/* Its handler calls the members with _cb. */
typedef struct {
  uartcb_t txend1_cb;
  uartcb_t txend2_cb;
  uartcb_t rxend_cb;
  uartccb_t rxchar_cb;
  uartecb_t rxerr_cb;
  uartcb_t timeout_cb;
  uint32_t timeout;
  uint32_t speed;
  uint32_t cr1;
  uint32_t cr2;
  uint32_t cr3;
} UARTConfig;
struct UARTDriver {
  uartstate_t state;
  uarttxstate_t txstate;
  uartrxstate_t rxstate;
  const UARTConfig *config;
};
extern UARTDriver UARTD1, UARTD2, UARTD3, UARTD4, UARTD5, UARTD6, UARTD7, UARTD8;

/* Normal class. */
void uartStart(UARTDriver *, const UARTConfig *);
void uartStop(UARTDriver *);
void uartStartSend(UARTDriver *, size_t, const void *);
size_t uartStopSend(UARTDriver *);
void uartStartReceive(UARTDriver *, size_t, void *);
size_t uartStopReceive(UARTDriver *);
msg_t uartSendTimeout(UARTDriver *, size_t *, const void *, sysinterval_t);
msg_t uartSendFullTimeout(UARTDriver *, size_t *, const void *, sysinterval_t);
msg_t uartReceiveTimeout(UARTDriver *, size_t *, void *, sysinterval_t);
void uartAcquireBus(UARTDriver *);
void uartReleaseBus(UARTDriver *);
/* I-class. */
void uartStartSendI(UARTDriver *, size_t, const void *);
size_t uartStopSendI(UARTDriver *);
void uartStartReceiveI(UARTDriver *, size_t, void *);
size_t uartStopReceiveI(UARTDriver *);

#endif
