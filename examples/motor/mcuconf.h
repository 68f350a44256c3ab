/* The microcontroller's settings. */
#define STM32F4xx_MCUCONF
#define STM32_PWM_USE_ADVANCED FALSE
#define STM32_PWM_USE_TIM3 TRUE
