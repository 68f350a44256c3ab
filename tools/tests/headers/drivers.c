/* Each driver's configuration with its callbacks, and each macro that a driver's header has for a call. */
#include "hal.h"
#include "chprintf.h"
#include "shell.h"
#include "ctype.h"
#include "errno.h"
#include "inttypes.h"
#include "limits.h"
#include "stdint.h"
#include "stdio.h"
#include "stdlib.h"
#include "string.h"

static const ioline_t lines[] = {PAL_LINE(GPIOA, 5U), PAL_NOLINE};
static void on_line(void *arg) {
  palToggleLine(*(const ioline_t *)arg);
}
static void on_gpt(GPTDriver *driver) {
  (void)driver;
}
static const GPTConfig gpt = {10000U, on_gpt, 0U, 0U};
static void on_pwm(PWMDriver *driver) {
  pwmEnableChannelI(driver, 0U, PWM_PERCENTAGE_TO_WIDTH(driver, 5000));
}
static const PWMConfig pwm = {1000000U, 1000U, on_pwm, {{PWM_OUTPUT_ACTIVE_HIGH, on_pwm}}, 0U, 0U};
static void on_adc(ADCDriver *driver) {
  (void)adcIsBufferComplete(driver);
}
static void on_adc_error(ADCDriver *driver, adcerror_t error) {
  (void)driver;
  (void)error;
}
static const ADCConversionGroup group = {
  .num_channels = 1, .end_cb = on_adc, .error_cb = on_adc_error, .cfgr = 1U, .sqr = {1U}};
static void on_dac(DACDriver *driver) {
  (void)dacIsBufferComplete(driver);
}
static const DACConversionGroup wave = {1U, on_dac, NULL, DAC_TRG(0)};
static void on_spi(SPIDriver *driver) {
  spiUnselectI(driver);
}
static const SPIConfig spi = {false, on_spi, GPIOB, 12U, SPI_CR1_BR_0, 0U};
static void on_icu(ICUDriver *driver) {
  (void)icuGetWidthX(driver);
}
static const ICUConfig icu = {ICU_INPUT_ACTIVE_HIGH, 10000U, on_icu, on_icu, NULL, ICU_CHANNEL_1, 0U, 0U};
static void on_can(CANDriver *driver, uint32_t flags) {
  (void)driver;
  (void)flags;
}
static void on_rtc(RTCDriver *driver, rtcevent_t event) {
  (void)driver;
  (void)event;
}
static void on_uart(UARTDriver *driver) {
  (void)driver;
}
static const UARTConfig uart = {on_uart, NULL, on_uart, NULL, NULL, NULL, 0U, 115200U, 0U, 0U, 0U};
static const SerialConfig serial = {115200U, 0U, USART_CR2_STOP1_BITS, 0U};
static const I2CConfig i2c = {OPMODE_I2C, 100000U, STD_DUTY_CYCLE, 0U, 0U, 0U};
static const CANConfig can = {CAN_MCR_ABOM, CAN_BTR_BRP(1U)};
static const WDGConfig wdg = {STM32_IWDG_PR_4, STM32_IWDG_RL(1000U), STM32_IWDG_WIN_DISABLED};
static USBInEndpointState in;
static USBOutEndpointState out;
static const USBEndpointConfig endpoint = {
  USB_EP_MODE_TYPE_BULK, NULL, sduDataTransmitted, sduDataReceived, 64U, 64U, &in, &out, 1U, NULL};
static SerialUSBDriver sdu;
static const SerialUSBConfig sdu_config = {&USBD1, 1U, 1U, 2U};
static const uint8_t device[] = {USB_DESC_DEVICE(0x0200, 2U, 0U, 0U, 64U, 0x0483, 0x5740, 0x0200, 1U, 2U, 3U, 1U)};
static void on_event(USBDriver *driver, usbevent_t event) {
  (void)event;
  chSysLockFromISR();
  usbInitEndpointI(driver, 1U, &endpoint);
  sduConfigureHookI(&sdu);
  chSysUnlockFromISR();
}
static const USBDescriptor *descriptor_of(USBDriver *driver, uint8_t type, uint8_t index, uint16_t language) {
  static const USBDescriptor descriptor = {sizeof device, device};
  (void)driver;
  (void)index;
  (void)language;
  return type == USB_DESCRIPTOR_DEVICE ? &descriptor : NULL;
}
static void on_control(USBDriver *driver) {
  (void)usbGetDriverStateI(driver);
}
static bool on_request(USBDriver *driver) {
  usbSetupTransfer(driver, NULL, 0U, on_control);
  return sduRequestsHook(driver);
}
static const USBConfig usb = {on_event, descriptor_of, on_request, NULL};

static int by_number(const void *a, const void *b) {
  return *(const int *)a - *(const int *)b;
}
static void cmd_sort(BaseSequentialStream *stream, int argc, char *argv[]) {
  int numbers[3] = {3, 1, 2};
  int key = argc > 0 ? atoi(argv[0]) : INT_MAX;
  qsort(numbers, 3U, sizeof numbers[0], by_number);
  if (bsearch(&key, numbers, 3U, sizeof numbers[0], by_number) == NULL || errno == EIO || isdigit(argv[0][0])) {
    chprintf(stream, "%" PRIu32 " %u\r\n", UINT32_C(1), (unsigned int)strlen(argv[0]));
  }
}
static const ShellCommand commands[] = {{"sort", cmd_sort}, {NULL, NULL}};
static const ShellConfig shell = {(BaseSequentialStream *)&SD2, commands};
static THD_WORKING_AREA(area, 256);

int main(void) {
  adcsample_t samples[1];
  uint8_t bytes[4];
  event_listener_t listener;
  RTCDateTime now;
  char text[8];

  halInit();
  osalSysLock();
  osalDbgCheckClassI();
  palSetLineCallbackI(lines[0], on_line, NULL);
  osalSysUnlock();
  palSetPadCallback(GPIOA, 0U, on_line, (void *)lines);
  palSetLineCallback(lines[0], on_line, NULL);
  palEnableLineEvent(lines[0], PAL_EVENT_MODE_RISING_EDGE);
  osalDbgAssert(PAL_PORT(lines[0]) == GPIOA && PAL_PAD(lines[0]) == 5U, "line");
  gptStart(&GPTD1, &gpt);
  pwmStart(&PWMD1, &pwm);
  adcStartConversion(&ADCD1, &group, samples, 1U);
  dacStartConversion(&DACD1, &wave, samples, 1U);
  spiStart(&SPID1, &spi);
  icuStart(&ICUD1, &icu);
  CAND1.rxfull_cb = on_can;
  canStart(&CAND1, &can);
  uartStart(&UARTD1, &uart);
  sdStart(&SD2, &serial);
  i2cStart(&I2CD1, &i2c);
  (void)i2cMasterTransmit(&I2CD1, 8U, bytes, 1U, bytes, 1U);
  (void)i2cMasterReceive(&I2CD1, 8U, bytes, 1U);
  wdgStart(&WDGD1, &wdg);
  rtcSetCallback(&RTCD1, on_rtc);
  rtcGetTime(&RTCD1, &now);
  rtcSetTime(&RTCD1, &now);
  usbStart(&USBD1, &usb);
  sduStart(&sdu, &sdu_config);
  chEvtRegister(chnGetEventSource(&SD2), &listener, 1);
  (void)sdPut(&SD2, 65U);
  (void)sdGet(&SD2);
  (void)sdWrite(&SD2, bytes, 4U);
  (void)sdRead(&SD2, bytes, 4U);
  (void)chnWrite(&sdu, bytes, 4U);
  (void)chnRead(&sdu, bytes, 4U);
  (void)streamPut((BaseSequentialStream *)&sdu, 65U);
  (void)chsnprintf(text, sizeof text, "%u", 1U);
  (void)snprintf(text, sizeof text, "%u", 1U);
  shellInit();
  (void)chThdCreateStatic(area, sizeof area, NORMALPRIO, shellThread, (void *)&shell);
  while (true) {
    osalThreadSleepMilliseconds(100);
  }
}
