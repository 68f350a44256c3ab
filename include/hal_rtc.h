/*
 * The real time clock, for the checker. Its calls may come from threads and handlers, locked or not: the driver
 * enters a critical section by a status pair. So these have a body here, which opens and closes one.
 */
#ifndef HAL_RTC_H
#define HAL_RTC_H

#include "osal.h"

#define RTC_BASE_YEAR 1980U

typedef struct RTCDriver RTCDriver;
typedef uint32_t rtcalarm_t;
typedef enum {
  RTC_EVENT_WAKEUP = 0,
  RTC_EVENT_ALARM_A = 1,
  RTC_EVENT_ALARM_B = 2,
  RTC_EVENT_SECOND = 3,
  RTC_EVENT_ALARM = 4
} rtcevent_t;
typedef void (*rtccb_t)(RTCDriver *, rtcevent_t);
typedef struct {
  uint32_t year;
  uint32_t month;
  uint32_t dstflag;
  uint32_t dayofweek;
  uint32_t day;
  uint32_t millisecond;
} RTCDateTime;
typedef struct {
  uint32_t alrmr;
} RTCAlarm;
typedef struct {
  uint32_t wutr;
} RTCWakeup;
/* Its handler calls `callback`. */
struct RTCDriver {
  rtccb_t callback;
};
extern RTCDriver RTCD1;

static inline void rtcheck_rtc_pair(void) {
  syssts_t status;
  status = chSysGetStatusAndLockX();
  chSysRestoreStatusX(status);
}
#define rtcSetTime(driver, time) (rtcheck_rtc_pair(), rtcheck_rtcSetTime(driver, time))
#define rtcGetTime(driver, time) (rtcheck_rtc_pair(), rtcheck_rtcGetTime(driver, time))
#define rtcSetAlarm(driver, alarm, spec) (rtcheck_rtc_pair(), rtcheck_rtcSetAlarm(driver, alarm, spec))
#define rtcGetAlarm(driver, alarm, spec) (rtcheck_rtc_pair(), rtcheck_rtcGetAlarm(driver, alarm, spec))
#define rtcSTM32SetPeriodicWakeup(driver, spec) (rtcheck_rtc_pair(), rtcheck_rtcSetPeriodicWakeup(driver, spec))
#define rtcSetCallback(driver, function) (rtcheck_rtc_pair(), (void)((driver)->callback = (function)))

/* No kernel call beside those of the pair. */
void rtcheck_rtcSetTime(RTCDriver *, const RTCDateTime *);
void rtcheck_rtcGetTime(RTCDriver *, RTCDateTime *);
void rtcheck_rtcSetAlarm(RTCDriver *, rtcalarm_t, const RTCAlarm *);
void rtcheck_rtcGetAlarm(RTCDriver *, rtcalarm_t, RTCAlarm *);
void rtcheck_rtcSetPeriodicWakeup(RTCDriver *, const RTCWakeup *);
uint32_t rtcConvertDateTimeToFAT(const RTCDateTime *);

#endif
