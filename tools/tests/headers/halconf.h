/* Every driver of the stub headers, for tools/check_drivers.sh. */
#define HAL_USE_PAL TRUE
#define HAL_USE_ADC TRUE
#define HAL_USE_CAN TRUE
#define HAL_USE_DAC TRUE
#define HAL_USE_GPT TRUE
#define HAL_USE_I2C TRUE
#define HAL_USE_ICU TRUE
#define HAL_USE_PWM TRUE
#define HAL_USE_RTC TRUE
#define HAL_USE_SERIAL TRUE
#define HAL_USE_SERIAL_USB TRUE
#define HAL_USE_SPI TRUE
#define HAL_USE_UART TRUE
#define HAL_USE_USB TRUE
#define HAL_USE_WDG TRUE
