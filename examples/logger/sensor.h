/* The sensor at PORT_SENSOR. */
#ifndef SENSOR_H
#define SENSOR_H

#include "hal.h"

msg_t sensor_sample(void);

#endif
