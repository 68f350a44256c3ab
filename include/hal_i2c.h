/* I2C masters, for the checker. */
#ifndef HAL_I2C_H
#define HAL_I2C_H

#include "osal.h"

#define I2C_NO_ERROR 0U
#define I2C_BUS_ERROR 1U
#define I2C_ARBITRATION_LOST 2U
#define I2C_ACK_FAILURE 4U
#define I2C_OVERRUN 8U
#define I2C_PEC_ERROR 16U
#define I2C_TIMEOUT 32U
#define I2C_SMB_ALERT 64U

typedef enum {
  I2C_UNINIT = 0,
  I2C_STOP = 1,
  I2C_READY = 2,
  I2C_ACTIVE_TX = 3,
  I2C_ACTIVE_RX = 4,
  I2C_LOCKED = 5
} i2cstate_t;
typedef enum { OPMODE_I2C = 1, OPMODE_SMBUS_DEVICE = 2, OPMODE_SMBUS_HOST = 3 } i2copmode_t;
typedef enum { STD_DUTY_CYCLE = 1, FAST_DUTY_CYCLE_2 = 2, FAST_DUTY_CYCLE_16_9 = 3 } i2cdutycycle_t;
typedef uint16_t i2caddr_t;
typedef uint32_t i2cflags_t;
typedef struct {
  i2copmode_t op_mode;
  uint32_t clock_speed;
  i2cdutycycle_t duty_cycle;
  uint32_t timingr;
  uint32_t cr1;
  uint32_t cr2;
} I2CConfig;
typedef struct I2CDriver {
  i2cstate_t state;
  const I2CConfig *config;
  i2cflags_t errors;
} I2CDriver;
extern I2CDriver I2CD1, I2CD2, I2CD3, I2CD4;

#define i2cMasterTransmit(driver, address, tx, tx_size, rx, rx_size) \
  i2cMasterTransmitTimeout(driver, address, tx, tx_size, rx, rx_size, TIME_INFINITE)
#define i2cMasterReceive(driver, address, rx, rx_size) \
  i2cMasterReceiveTimeout(driver, address, rx, rx_size, TIME_INFINITE)

/* Normal class. */
void i2cStart(I2CDriver *, const I2CConfig *);
void i2cStop(I2CDriver *);
i2cflags_t i2cGetErrors(I2CDriver *);
msg_t i2cMasterTransmitTimeout(I2CDriver *, i2caddr_t, const uint8_t *, size_t, uint8_t *, size_t, sysinterval_t);
msg_t i2cMasterReceiveTimeout(I2CDriver *, i2caddr_t, uint8_t *, size_t, sysinterval_t);
void i2cAcquireBus(I2CDriver *);
void i2cReleaseBus(I2CDriver *);

#endif
