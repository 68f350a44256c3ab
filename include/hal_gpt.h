/* General purpose timers, for the checker. */
#ifndef HAL_GPT_H
#define HAL_GPT_H

#include "osal.h"

typedef enum { GPT_UNINIT = 0, GPT_STOP = 1, GPT_READY = 2, GPT_CONTINUOUS = 3, GPT_ONESHOT = 4 } gptstate_t;
typedef uint32_t gptfreq_t;
typedef uint32_t gptcnt_t;
typedef struct GPTDriver GPTDriver;
typedef void (*gptcallback_t)(GPTDriver *);
/* Its handler calls `callback`. */
typedef struct {
  gptfreq_t frequency;
  gptcallback_t callback;
  uint32_t cr2;
  uint32_t dier;
} GPTConfig;
struct GPTDriver {
  gptstate_t state;
  const GPTConfig *config;
  uint32_t clock;
};
extern GPTDriver GPTD1, GPTD2, GPTD3, GPTD4, GPTD5, GPTD6, GPTD7, GPTD8, GPTD9;
extern GPTDriver GPTD11, GPTD12, GPTD14, GPTD15, GPTD16, GPTD17;

/* Normal class. */
void gptStart(GPTDriver *, const GPTConfig *);
void gptStop(GPTDriver *);
void gptChangeInterval(GPTDriver *, gptcnt_t);
void gptStartContinuous(GPTDriver *, gptcnt_t);
void gptStartOneShot(GPTDriver *, gptcnt_t);
void gptStopTimer(GPTDriver *);
/* I-class. */
void gptChangeIntervalI(GPTDriver *, gptcnt_t);
void gptStartContinuousI(GPTDriver *, gptcnt_t);
void gptStartOneShotI(GPTDriver *, gptcnt_t);
void gptStopTimerI(GPTDriver *);
/* X-class. */
gptcnt_t gptGetIntervalX(GPTDriver *);
gptcnt_t gptGetCounterX(GPTDriver *);
/* No kernel call. */
void gptPolledDelay(GPTDriver *, gptcnt_t);

#endif
