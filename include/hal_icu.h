/* Input capture, for the checker. */
#ifndef HAL_ICU_H
#define HAL_ICU_H

#include "osal.h"

typedef enum { ICU_UNINIT = 0, ICU_STOP = 1, ICU_READY = 2, ICU_WAITING = 3, ICU_ACTIVE = 4 } icustate_t;
typedef enum { ICU_INPUT_ACTIVE_HIGH = 0, ICU_INPUT_ACTIVE_LOW = 1 } icumode_t;
typedef enum { ICU_CHANNEL_1 = 0, ICU_CHANNEL_2 = 1 } icuchannel_t;
typedef uint32_t icufreq_t;
typedef uint32_t icucnt_t;
typedef struct ICUDriver ICUDriver;
typedef void (*icucallback_t)(ICUDriver *);
/* Its handler calls `width_cb`, `period_cb` and `overflow_cb`. */
typedef struct {
  icumode_t mode;
  icufreq_t frequency;
  icucallback_t width_cb;
  icucallback_t period_cb;
  icucallback_t overflow_cb;
  icuchannel_t channel;
  uint32_t dier;
  uint32_t arr;
} ICUConfig;
struct ICUDriver {
  icustate_t state;
  const ICUConfig *config;
};
extern ICUDriver ICUD1, ICUD2, ICUD3, ICUD4, ICUD5, ICUD8, ICUD9;

/* Normal class. */
void icuStart(ICUDriver *, const ICUConfig *);
void icuStop(ICUDriver *);
void icuStartCapture(ICUDriver *);
bool icuWaitCapture(ICUDriver *);
void icuStopCapture(ICUDriver *);
void icuEnableNotifications(ICUDriver *);
void icuDisableNotifications(ICUDriver *);
/* I-class. */
void icuStartCaptureI(ICUDriver *);
void icuEnableNotificationsI(ICUDriver *);
void icuDisableNotificationsI(ICUDriver *);
/* I-class that may wake. */
void icuStopCaptureI(ICUDriver *);
/* X-class. */
bool icuAreNotificationsEnabledX(ICUDriver *);
icucnt_t icuGetWidthX(ICUDriver *);
icucnt_t icuGetPeriodX(ICUDriver *);

#endif
