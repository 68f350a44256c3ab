/* Digital to analogue converters, for the checker. */
#ifndef HAL_DAC_H
#define HAL_DAC_H

#include "osal.h"

typedef enum {
  DAC_UNINIT = 0,
  DAC_STOP = 1,
  DAC_READY = 2,
  DAC_ACTIVE = 3,
  DAC_COMPLETE = 4,
  DAC_ERROR = 5
} dacstate_t;
typedef enum { DAC_ERR_DMAFAILURE = 0, DAC_ERR_UNDERFLOW = 1 } dacerror_t;
typedef enum { DAC_DHRM_12BIT_RIGHT = 0, DAC_DHRM_12BIT_LEFT = 1, DAC_DHRM_8BIT_RIGHT = 2 } dacdhrmode_t;
typedef uint16_t dacsample_t;
typedef uint32_t dacchannel_t;
typedef struct DACDriver DACDriver;
typedef void (*daccallback_t)(DACDriver *);
typedef void (*dacerrorcallback_t)(DACDriver *, dacerror_t);
typedef struct {
  uint32_t init;
  dacdhrmode_t datamode;
  uint32_t cr;
} DACConfig;
/* Its handler calls `end_cb` and `error_cb`. */
typedef struct {
  uint32_t num_channels;
  daccallback_t end_cb;
  dacerrorcallback_t error_cb;
  uint32_t trigger;
} DACConversionGroup;
struct DACDriver {
  dacstate_t state;
  const DACConversionGroup *grpp;
  dacsample_t *samples;
  size_t depth;
  const DACConfig *config;
};
extern DACDriver DACD1, DACD2, DACD3, DACD4;

#define DAC_TRG(n) (n)
#define dacIsBufferComplete(driver) ((bool)((driver)->state == DAC_COMPLETE))

/* Normal class. */
void dacStart(DACDriver *, const DACConfig *);
void dacStop(DACDriver *);
void dacPutChannel(DACDriver *, dacchannel_t, dacsample_t);
void dacStartConversion(DACDriver *, const DACConversionGroup *, dacsample_t *, size_t);
void dacStopConversion(DACDriver *);
msg_t dacConvert(DACDriver *, const DACConversionGroup *, dacsample_t *, size_t);
void dacAcquireBus(DACDriver *);
void dacReleaseBus(DACDriver *);
/* I-class. */
void dacStartConversionI(DACDriver *, const DACConversionGroup *, dacsample_t *, size_t);
/* I-class that may wake. */
void dacStopConversionI(DACDriver *);
/* X-class. */
void dacPutChannelX(DACDriver *, dacchannel_t, dacsample_t);

#endif
