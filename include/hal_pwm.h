/* Pulse width modulation, for the checker. */
#ifndef HAL_PWM_H
#define HAL_PWM_H

#include "osal.h"

#define PWM_CHANNELS 6
#define PWM_OUTPUT_MASK 15U
#define PWM_OUTPUT_DISABLED 0U
#define PWM_OUTPUT_ACTIVE_HIGH 1U
#define PWM_OUTPUT_ACTIVE_LOW 2U
#define PWM_COMPLEMENTARY_OUTPUT_DISABLED 0U
#define PWM_COMPLEMENTARY_OUTPUT_ACTIVE_HIGH 16U
#define PWM_COMPLEMENTARY_OUTPUT_ACTIVE_LOW 32U

typedef enum { PWM_UNINIT = 0, PWM_STOP = 1, PWM_READY = 2 } pwmstate_t;
typedef uint32_t pwmmode_t;
typedef uint32_t pwmchannel_t;
typedef uint32_t pwmcnt_t;
typedef struct PWMDriver PWMDriver;
typedef void (*pwmcallback_t)(PWMDriver *);
/* Its handler calls `callback`, of the channels and of the whole. */
typedef struct {
  pwmmode_t mode;
  pwmcallback_t callback;
} PWMChannelConfig;
typedef struct {
  uint32_t frequency;
  pwmcnt_t period;
  pwmcallback_t callback;
  PWMChannelConfig channels[PWM_CHANNELS];
  uint32_t cr2;
#if STM32_PWM_USE_ADVANCED == TRUE
  uint32_t bdtr;
#endif
  uint32_t dier;
} PWMConfig;
struct PWMDriver {
  pwmstate_t state;
  const PWMConfig *config;
  pwmcnt_t period;
  uint32_t enabled;
  pwmchannel_t channels;
  uint32_t clock;
};
extern PWMDriver PWMD1, PWMD2, PWMD3, PWMD4, PWMD5, PWMD8, PWMD9, PWMD10;
extern PWMDriver PWMD11, PWMD12, PWMD13, PWMD14, PWMD15, PWMD16, PWMD17;

#define PWM_FRACTION_TO_WIDTH(driver, denominator, numerator) \
  ((pwmcnt_t)((((pwmcnt_t)(driver)->period) * (pwmcnt_t)(numerator)) / (pwmcnt_t)(denominator)))
#define PWM_DEGREES_TO_WIDTH(driver, degrees) PWM_FRACTION_TO_WIDTH(driver, 36000, degrees)
#define PWM_PERCENTAGE_TO_WIDTH(driver, percentage) PWM_FRACTION_TO_WIDTH(driver, 10000, percentage)

/* Normal class. */
void pwmStart(PWMDriver *, const PWMConfig *);
void pwmStop(PWMDriver *);
void pwmChangePeriod(PWMDriver *, pwmcnt_t);
void pwmEnableChannel(PWMDriver *, pwmchannel_t, pwmcnt_t);
void pwmDisableChannel(PWMDriver *, pwmchannel_t);
void pwmEnablePeriodicNotification(PWMDriver *);
void pwmDisablePeriodicNotification(PWMDriver *);
void pwmEnableChannelNotification(PWMDriver *, pwmchannel_t);
void pwmDisableChannelNotification(PWMDriver *, pwmchannel_t);
/* I-class. */
void pwmChangePeriodI(PWMDriver *, pwmcnt_t);
void pwmEnableChannelI(PWMDriver *, pwmchannel_t, pwmcnt_t);
void pwmDisableChannelI(PWMDriver *, pwmchannel_t);
bool pwmIsChannelEnabledI(PWMDriver *, pwmchannel_t);
void pwmEnablePeriodicNotificationI(PWMDriver *);
void pwmDisablePeriodicNotificationI(PWMDriver *);
void pwmEnableChannelNotificationI(PWMDriver *, pwmchannel_t);
void pwmDisableChannelNotificationI(PWMDriver *, pwmchannel_t);

#endif
