/* SPI masters, for the checker. */
#ifndef HAL_SPI_H
#define HAL_SPI_H

#include "hal_pal.h"

#define SPI_SELECT_MODE_NONE 0
#define SPI_SELECT_MODE_PAD 1
#define SPI_SELECT_MODE_PORT 2
#define SPI_SELECT_MODE_LINE 3
#define SPI_SELECT_MODE_LLD 4
#ifndef SPI_SELECT_MODE
#define SPI_SELECT_MODE SPI_SELECT_MODE_PAD
#endif

typedef enum { SPI_UNINIT = 0, SPI_STOP = 1, SPI_READY = 2, SPI_ACTIVE = 3, SPI_COMPLETE = 4 } spistate_t;
typedef struct SPIDriver SPIDriver;
typedef void (*spicallback_t)(SPIDriver *);
/* Its handler calls `end_cb`. */
typedef struct SPIConfig {
  bool circular;
  spicallback_t end_cb;
#if SPI_SELECT_MODE == SPI_SELECT_MODE_LINE
  ioline_t ssline;
#elif SPI_SELECT_MODE == SPI_SELECT_MODE_PORT
  ioportid_t ssport;
  ioportmask_t ssmask;
#elif SPI_SELECT_MODE == SPI_SELECT_MODE_PAD
  ioportid_t ssport;
  iopadid_t sspad;
#endif
  uint16_t cr1;
  uint16_t cr2;
} SPIConfig;
struct SPIDriver {
  spistate_t state;
  const SPIConfig *config;
};
extern SPIDriver SPID1, SPID2, SPID3, SPID4, SPID5, SPID6;

#define SPI_CR1_CPHA 1U
#define SPI_CR1_CPOL 2U
#define SPI_CR1_BR_0 8U
#define SPI_CR1_BR_1 16U
#define SPI_CR1_BR_2 32U
#define SPI_CR1_LSBFIRST 128U
#define SPI_CR2_DS_0 256U
#define SPI_CR2_DS_1 512U
#define SPI_CR2_DS_2 1024U
#define SPI_CR2_DS_3 2048U
#define spiIsBufferComplete(driver) ((bool)((driver)->state == SPI_COMPLETE))

/* Normal class. */
void spiStart(SPIDriver *, const SPIConfig *);
void spiStop(SPIDriver *);
void spiSelect(SPIDriver *);
void spiUnselect(SPIDriver *);
void spiStartIgnore(SPIDriver *, size_t);
void spiStartExchange(SPIDriver *, size_t, const void *, void *);
void spiStartSend(SPIDriver *, size_t, const void *);
void spiStartReceive(SPIDriver *, size_t, void *);
void spiAbort(SPIDriver *);
void spiIgnore(SPIDriver *, size_t);
void spiExchange(SPIDriver *, size_t, const void *, void *);
void spiSend(SPIDriver *, size_t, const void *);
void spiReceive(SPIDriver *, size_t, void *);
void spiAcquireBus(SPIDriver *);
void spiReleaseBus(SPIDriver *);
/* I-class. */
void spiSelectI(SPIDriver *);
void spiUnselectI(SPIDriver *);
void spiStartIgnoreI(SPIDriver *, size_t);
void spiStartExchangeI(SPIDriver *, size_t, const void *, void *);
void spiStartSendI(SPIDriver *, size_t, const void *);
void spiStartReceiveI(SPIDriver *, size_t, void *);
/* I-class that may wake. */
void spiAbortI(SPIDriver *);
/* No kernel call. */
uint16_t spiPolledExchange(SPIDriver *, uint16_t);

#endif
