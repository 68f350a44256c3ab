/* Watchdogs, for the checker. */
#ifndef HAL_WDG_H
#define HAL_WDG_H

#include "osal.h"

#define STM32_IWDG_PR_4 0U
#define STM32_IWDG_PR_8 1U
#define STM32_IWDG_PR_16 2U
#define STM32_IWDG_PR_32 3U
#define STM32_IWDG_PR_64 4U
#define STM32_IWDG_PR_128 5U
#define STM32_IWDG_PR_256 6U
#define STM32_IWDG_RL(n) (n)
#define STM32_IWDG_WIN(n) (n)
#define STM32_IWDG_WIN_DISABLED STM32_IWDG_WIN(4095U)

typedef enum { WDG_UNINIT = 0, WDG_STOP = 1, WDG_READY = 2 } wdgstate_t;
typedef struct {
  uint32_t pr;
  uint32_t rlr;
  uint32_t winr;
} WDGConfig;
typedef struct WDGDriver {
  wdgstate_t state;
  const WDGConfig *config;
} WDGDriver;
extern WDGDriver WDGD1;

/* Normal class. */
void wdgStart(WDGDriver *, const WDGConfig *);
void wdgStop(WDGDriver *);
void wdgReset(WDGDriver *);
/* I-class. */
void wdgResetI(WDGDriver *);

#endif
