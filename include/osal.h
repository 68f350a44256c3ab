/*
 * The header of the operating system's abstraction layer, for the checker: other names for calls, types and macros of
 * the kernel, as the layer for ChibiOS/RT defines them.
 */
#ifndef OSAL_H
#define OSAL_H

#include "rtcheck_kernel.h"

#define OSAL_SUCCESS false
#define OSAL_FAILED true
#define OSAL_ST_FREQUENCY CH_CFG_ST_FREQUENCY
#define OSAL_FAST_IRQ_HANDLER CH_FAST_IRQ_HANDLER
#define OSAL_IRQ_IS_VALID_PRIORITY CH_IRQ_IS_VALID_KERNEL_PRIORITY

#define osalDbgAssert chDbgAssert
#define osalDbgCheck chDbgCheck
#define osalDbgCheckClassI chDbgCheckClassI
#define osalDbgCheckClassS chDbgCheckClassS

#define osalInit() ((void)0)
#define osalSysHalt chSysHalt
#define osalSysDisable chSysDisable
#define osalSysEnable chSysEnable
#define osalSysGetStatusAndLockX chSysGetStatusAndLockX
#define osalSysRestoreStatusX chSysRestoreStatusX
#define osalSysPolledDelayX chSysPolledDelayX
#define osalOsRescheduleS chSchRescheduleS
#define osalOsGetSystemTimeX chVTGetSystemTimeX

#define OSAL_S2I TIME_S2I
#define OSAL_MS2I TIME_MS2I
#define OSAL_US2I TIME_US2I
#define OSAL_I2S TIME_I2S
#define OSAL_I2MS TIME_I2MS
#define OSAL_I2US TIME_I2US
#define osalTimeAddX chTimeAddX
#define osalTimeDiffX chTimeDiffX
#define osalTimeIsInRangeX chTimeIsInRangeX

#define osalThreadSleep chThdSleep
#define osalThreadSleepS chThdSleepS
#define osalThreadSleepSeconds chThdSleepSeconds
#define osalThreadSleepMilliseconds chThdSleepMilliseconds
#define osalThreadSleepMicroseconds chThdSleepMicroseconds
#define osalThreadSuspendS chThdSuspendS
#define osalThreadSuspendTimeoutS chThdSuspendTimeoutS
#define osalThreadResumeI chThdResumeI
#define osalThreadResumeS chThdResumeS
#define osalThreadQueueObjectInit chThdQueueObjectInit
#define osalThreadEnqueueTimeoutS chThdEnqueueTimeoutS
#define osalThreadDequeueNextI chThdDequeueNextI
#define osalThreadDequeueAllI chThdDequeueAllI

#define osalEventObjectInit chEvtObjectInit
#define osalEventBroadcastFlags chEvtBroadcastFlags
#define osalEventBroadcastFlagsI chEvtBroadcastFlagsI
#define osalMutexObjectInit chMtxObjectInit
#define osalMutexLock chMtxLock
#define osalMutexUnlock chMtxUnlock

#endif
