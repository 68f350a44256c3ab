/* Serial ports with queues, for the checker. */
#ifndef HAL_SERIAL_H
#define HAL_SERIAL_H

#include "hal_streams.h"

#define SD_PARITY_ERROR 32U
#define SD_FRAMING_ERROR 64U
#define SD_OVERRUN_ERROR 128U
#define SD_NOISE_ERROR 256U
#define SD_BREAK_DETECTED 512U
#define SD_QUEUE_FULL_ERROR 1024U
#define USART_CR2_STOP1_BITS 0U
#define USART_CR2_STOP2_BITS 8192U
#define USART_CR2_LINEN 16384U
#define USART_CR3_RTSE 256U
#define USART_CR3_CTSE 512U

typedef enum { SD_UNINIT = 0, SD_STOP = 1, SD_READY = 2 } sdstate_t;
typedef struct {
  uint32_t speed;
  uint16_t cr1;
  uint32_t cr2;
  uint16_t cr3;
} SerialConfig;
typedef struct SerialDriver {
  uint32_t o[4];
  event_source_t event;
  sdstate_t state;
} SerialDriver;
extern SerialDriver SD1, SD2, SD3, SD4, SD5, SD6, SD7, SD8, LPSD1;

#define sdPut(driver, b) sdPutTimeout(driver, b, TIME_INFINITE)
#define sdGet(driver) sdGetTimeout(driver, TIME_INFINITE)
#define sdWrite(driver, b, n) sdWriteTimeout(driver, b, n, TIME_INFINITE)
#define sdRead(driver, b, n) sdReadTimeout(driver, b, n, TIME_INFINITE)
#define sdAsynchronousWrite(driver, b, n) sdWriteTimeout(driver, b, n, TIME_IMMEDIATE)
#define sdAsynchronousRead(driver, b, n) sdReadTimeout(driver, b, n, TIME_IMMEDIATE)

/* Normal class. */
void sdStart(SerialDriver *, const SerialConfig *);
void sdStop(SerialDriver *);
bool sdPutWouldBlock(SerialDriver *);
bool sdGetWouldBlock(SerialDriver *);
msg_t sdPutTimeout(SerialDriver *, uint8_t, sysinterval_t);
msg_t sdGetTimeout(SerialDriver *, sysinterval_t);
size_t sdWriteTimeout(SerialDriver *, const uint8_t *, size_t, sysinterval_t);
size_t sdReadTimeout(SerialDriver *, uint8_t *, size_t, sysinterval_t);
/* I-class. */
size_t sdWriteI(SerialDriver *, const uint8_t *, size_t);
size_t sdReadI(SerialDriver *, uint8_t *, size_t);
/* I-class that may wake. */
void sdIncomingDataI(SerialDriver *, uint8_t);
msg_t sdRequestDataI(SerialDriver *);

#endif
