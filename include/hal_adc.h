/* Analogue to digital converters, for the checker. */
#ifndef HAL_ADC_H
#define HAL_ADC_H

#include "osal.h"

typedef enum {
  ADC_UNINIT = 0,
  ADC_STOP = 1,
  ADC_READY = 2,
  ADC_ACTIVE = 3,
  ADC_COMPLETE = 4,
  ADC_ERROR = 5
} adcstate_t;
typedef uint16_t adcsample_t;
typedef uint16_t adc_channels_num_t;
typedef uint32_t adcerror_t;
typedef struct ADCDriver ADCDriver;
typedef void (*adccallback_t)(ADCDriver *);
typedef void (*adcerrorcallback_t)(ADCDriver *, adcerror_t);
typedef struct {
  uint32_t dummy;
} ADCConfig;
/* Its handler calls `end_cb` and `error_cb`. */
typedef struct {
  bool circular;
  adc_channels_num_t num_channels;
  adccallback_t end_cb;
  adcerrorcallback_t error_cb;
  uint32_t cr1;
  uint32_t cr2;
  uint32_t smpr1;
  uint32_t smpr2;
  uint16_t htr;
  uint16_t ltr;
  uint32_t sqr1;
  uint32_t sqr2;
  uint32_t sqr3;
  uint32_t cfgr;
  uint32_t cfgr1;
  uint32_t cfgr2;
  uint32_t tr;
  uint32_t tr1;
  uint32_t tr2;
  uint32_t tr3;
  uint32_t awd2cr;
  uint32_t awd3cr;
  uint32_t ccr;
  uint32_t chselr;
  uint32_t smpr[2];
  uint32_t sqr[4];
} ADCConversionGroup;
struct ADCDriver {
  adcstate_t state;
  const ADCConfig *config;
  adcsample_t *samples;
  size_t depth;
  const ADCConversionGroup *grpp;
};
extern ADCDriver ADCD1, ADCD2, ADCD3, ADCD4;

#define adcIsBufferComplete(driver) ((bool)((driver)->state == ADC_COMPLETE))

/* Normal class. */
void adcStart(ADCDriver *, const ADCConfig *);
void adcStop(ADCDriver *);
void adcStartConversion(ADCDriver *, const ADCConversionGroup *, adcsample_t *, size_t);
void adcStopConversion(ADCDriver *);
msg_t adcConvert(ADCDriver *, const ADCConversionGroup *, adcsample_t *, size_t);
void adcAcquireBus(ADCDriver *);
void adcReleaseBus(ADCDriver *);
/* I-class. */
void adcStartConversionI(ADCDriver *, const ADCConversionGroup *, adcsample_t *, size_t);
/* I-class that may wake. */
void adcStopConversionI(ADCDriver *);
/* No kernel call. */
void adcSTM32EnableTSVREFE(void);
void adcSTM32DisableTSVREFE(void);
void adcSTM32EnableVBATE(void);
void adcSTM32DisableVBATE(void);

#endif
