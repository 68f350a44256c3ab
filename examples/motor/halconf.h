/* The drivers that are used. */
#include "mcuconf.h"

#define HAL_USE_PAL TRUE
#define HAL_USE_PWM TRUE
