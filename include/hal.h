/*
 * The header of the hardware abstraction layer, for the checker. As there, a driver is declared where the
 * application's halconf.h sets its switch, as HAL_USE_PAL, to TRUE; without a halconf.h there is none, and the
 * application declares what it uses of drivers (docs/PREPROCESSING.md).
 *
 * The types have the members that HAL 7.1 documents, in the order of one family of microcontrollers, and after them
 * members that other families have. The functions have no body: hal.toml has the class of each, and the comment above
 * a group too.
 */
#ifndef HAL_H
#define HAL_H

#include "osal.h"

/* The application's own choice of drivers and clocks, and its board, where it has them. */
#ifdef __has_include
#if __has_include("halconf.h")
#include "halconf.h"
#endif
#if __has_include("mcuconf.h")
#include "mcuconf.h"
#endif
#endif

#define __CHIBIOS_HAL__
#define CH_HAL_MAJOR 7
#define CH_HAL_MINOR 1
#define HAL_SUCCESS OSAL_SUCCESS
#define HAL_FAILED OSAL_FAILED

/* No kernel call that has a check. */
void halInit(void);

#include "hal_streams.h"
#if HAL_USE_PAL == TRUE
#include "hal_pal.h"
#endif
#if HAL_USE_ADC == TRUE
#include "hal_adc.h"
#endif
#if HAL_USE_CAN == TRUE
#include "hal_can.h"
#endif
#if HAL_USE_DAC == TRUE
#include "hal_dac.h"
#endif
#if HAL_USE_GPT == TRUE
#include "hal_gpt.h"
#endif
#if HAL_USE_I2C == TRUE
#include "hal_i2c.h"
#endif
#if HAL_USE_ICU == TRUE
#include "hal_icu.h"
#endif
#if HAL_USE_PWM == TRUE
#include "hal_pwm.h"
#endif
#if HAL_USE_RTC == TRUE
#include "hal_rtc.h"
#endif
#if HAL_USE_SERIAL == TRUE
#include "hal_serial.h"
#endif
#if HAL_USE_SPI == TRUE
#include "hal_spi.h"
#endif
#if HAL_USE_UART == TRUE
#include "hal_uart.h"
#endif
#if HAL_USE_USB == TRUE
#include "hal_usb.h"
#endif
#if HAL_USE_SERIAL_USB == TRUE
#include "hal_serial_usb.h"
#endif
#if HAL_USE_WDG == TRUE
#include "hal_wdg.h"
#endif

/* Interrupts of the core. No kernel call. */
void nvicEnableVector(uint32_t, uint32_t);
void nvicDisableVector(uint32_t);

#ifdef __has_include
#if __has_include("board.h")
#include "board.h"
#endif
#endif

#endif
