/* The motor's bridge. */
#ifndef DRIVE_H
#define DRIVE_H

#include "hal.h"

void drive_start(void);
void drive_stop(void);
/* the wanted speed; from threads and handlers, locked or not */
void drive_set(int32_t speed);
/* one step of the loop at the measured speed */
void drive_step(int32_t speed);

#endif
