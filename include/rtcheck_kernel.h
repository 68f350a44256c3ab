/*
 * What applications take from the kernel's header beside the types and calls of rtcheck_ch.h, which are those that
 * the checker knows. It has macros for
 *
 * - calls that are another way to write calls of the table;
 * - calls that the table hasn't: each becomes a function without a body, with its name after rtcheck_, and hal.toml
 *   has its class. The comment above a group of these says the class too.
 *
 * docs/PREPROCESSING.md says for each of them why that is sound. What isn't here, as chSysUnconditionalLock, is
 * refused.
 */
#ifndef RTCHECK_KERNEL_H
#define RTCHECK_KERNEL_H

#include "rtcheck_ch.h"

#define FALSE 0
#define TRUE 1

/* The application's own settings of the kernel, where it has them. */
#ifdef __has_include
#if __has_include("chconf.h")
#include "chconf.h"
#endif
#endif

/*
 * Whether assertions and checks of parameters are evaluated: a verdict depends on it, since a failed one ends the
 * flow.
 */
#ifndef CH_DBG_ENABLE_ASSERTS
#define CH_DBG_ENABLE_ASSERTS TRUE
#endif
#ifndef CH_DBG_ENABLE_CHECKS
#define CH_DBG_ENABLE_CHECKS TRUE
#endif
#ifndef CH_CFG_ST_FREQUENCY
#define CH_CFG_ST_FREQUENCY 1000
#endif

#define __CHIBIOS_RT__
#define CH_KERNEL_VERSION "6.1.0"
#define CH_KERNEL_MAJOR 6
#define CH_KERNEL_MINOR 1
#define CH_KERNEL_PATCH 0

/* What only places or describes an object or a function. */
#define CC_WEAK
#define CC_USED
#define CC_PACK
#define CC_NO_INLINE
#define CC_NO_RETURN
#define CC_FORCE_INLINE
#define CC_ALIGN_DATA(n)
#define CC_ALIGN_CODE(n)
#define CC_SECTION(s)
#define CC_ROMCONST const

/* Handlers. */
#define CH_FAST_IRQ_HANDLER(id) void id(void)
#define CH_IRQ_IS_VALID_PRIORITY(p) ((p) < 16U)
#define CH_IRQ_IS_VALID_KERNEL_PRIORITY(p) ((p) < 16U)

/* Types. */
typedef uint32_t ucnt_t;
typedef uint32_t eventid_t;
typedef uint32_t rtcnt_t;
typedef uint64_t rttime_t;
typedef uint32_t time_msecs_t;
typedef uint32_t time_usecs_t;
typedef uint32_t time_secs_t;
typedef uint64_t systimestamp_t;
typedef uint32_t stkalign_t;
typedef uint8_t tstate_t;
typedef void (*evhandler_t)(eventid_t);

/* Threads. */
#define THD_WORKING_AREA_SIZE(n) (n)
#define THD_WORKING_AREA_BASE(s) ((stkalign_t *)(s))
#define THD_WORKING_AREA_END(s) ((stkalign_t *)(s) + sizeof(s) / sizeof(stkalign_t))
#define THD_DESCRIPTOR(name, wbase, wend, prio, funcp, arg) {(name), (wbase), (wend), (prio), (funcp), (arg)}

/* Objects that are made without a call. What waits on them and what they count isn't followed. */
#define _SEMAPHORE_DATA(name, n) {{0}}
#define _BSEMAPHORE_DATA(name, taken) {{0}}
#define _MUTEX_DATA(name) {{0}}
#define _CONDVAR_DATA(name) {{0}}
#define _EVENTSOURCE_DATA(name) {{0}}
#define _MAILBOX_DATA(name, buffer, size) {{0}}
#define _THREADS_QUEUE_DATA(name) {{0}}
#define SEMAPHORE_DECL(name, n) semaphore_t name = _SEMAPHORE_DATA(name, n)
#define BSEMAPHORE_DECL(name, taken) binary_semaphore_t name = _BSEMAPHORE_DATA(name, taken)
#define MUTEX_DECL(name) mutex_t name = _MUTEX_DATA(name)
#define CONDVAR_DECL(name) condition_variable_t name = _CONDVAR_DATA(name)
#define EVENTSOURCE_DECL(name) event_source_t name = _EVENTSOURCE_DATA(name)
#define MAILBOX_DECL(name, buffer, size) mailbox_t name = _MAILBOX_DATA(name, buffer, size)
#define _THREADS_QUEUE_DECL(name) threads_queue_t name = _THREADS_QUEUE_DATA(name)

/* Times, at 1000 ticks a second as in rtcheck_ch.h. A test of constants that are made of these goes by these values. */
#define TIME_MAX_INTERVAL 4294967294U
#define TIME_MAX_SYSTIME 4294967295U
#define TIME_US2I(x) (((x) + 999) / 1000)
#define TIME_I2S(x) (((x) + 999) / 1000)
#define TIME_I2MS(x) (x)
#define TIME_I2US(x) ((x) * 1000)
#define chTimeS2I(x) ((sysinterval_t)TIME_S2I(x))
#define chTimeMS2I(x) ((sysinterval_t)TIME_MS2I(x))
#define chTimeUS2I(x) ((sysinterval_t)TIME_US2I(x))
#define chTimeI2S(x) ((time_secs_t)TIME_I2S(x))
#define chTimeI2MS(x) ((time_msecs_t)TIME_I2MS(x))
#define chTimeI2US(x) ((time_usecs_t)TIME_I2US(x))
#define chTimeAddX(time, interval) ((systime_t)((time) + (interval)))
#define chTimeDiffX(start, end) ((sysinterval_t)((end) - (start)))
#define chTimeIsInRangeX(time, start, end) ((systime_t)((time) - (start)) < (systime_t)((end) - (start)))

/* Calls that are another way to write calls of the table. */
#define chThdSleepMicroseconds(x) chThdSleep(TIME_US2I(x))
#define chThdDoDequeueNextI(queue, msg) chThdDequeueNextI(queue, msg)
#define chThdCreateFromHeap(heap, size, name, prio, funcp, arg) \
  ((void)(name), chThdCreateStatic(chHeapAlloc(heap, size), size, prio, funcp, arg))
#define chThdCreateFromMemoryPool(pool, name, prio, funcp, arg) \
  ((void)(name), chThdCreateStatic(chPoolAlloc(pool), 0U, prio, funcp, arg))
#define chSemResetWithMessage(sem, n, msg) ((void)(msg), chSemReset(sem, n))
#define chSemResetWithMessageI(sem, n, msg) ((void)(msg), chSemResetI(sem, n))
#define chEvtRegister(source, listener, event) chEvtRegisterMask(source, listener, EVENT_MASK(event))
#define chEvtRegisterMaskWithFlags(source, listener, events, flags) \
  ((void)(flags), chEvtRegisterMask(source, listener, events))
#define chVTIsSystemTimeWithin(start, end) chTimeIsInRangeX(chVTGetSystemTime(), start, end)
#define chVTIsSystemTimeWithinX(start, end) chTimeIsInRangeX(chVTGetSystemTimeX(), start, end)
#define chHeapAllocAligned(heap, size, align) ((void)(align), chHeapAlloc(heap, size))
#define chCoreAllocAligned(size, align) ((void)(align), chCoreAlloc(size))
#define chCoreAllocAlignedI(size, align) ((void)(align), chCoreAllocI(size))
#define chCoreAllocAlignedWithOffset(size, align, offset) ((void)(align), (void)(offset), chCoreAlloc(size))
#define chCoreAllocAlignedWithOffsetI(size, align, offset) ((void)(align), (void)(offset), chCoreAllocI(size))

/* Events. */
#define EVENT_MASK(n) ((eventmask_t)1 << (eventmask_t)(n))
#define ALL_EVENTS ((eventmask_t)4294967295U)
/* Each handler is called where it is: over the name of an array, since no pointer to a function pointer is read. */
#define chEvtDispatch(handlers, events) \
  do { \
    eventid_t rtcheck_event = 0U; \
    eventmask_t rtcheck_events = (events); \
    while (rtcheck_events != 0U) { \
      if ((rtcheck_events & EVENT_MASK(rtcheck_event)) != 0U) { \
        rtcheck_events &= ~EVENT_MASK(rtcheck_event); \
        handlers[rtcheck_event](rtcheck_event); \
      } \
      rtcheck_event++; \
    } \
  } while (0)

/* Assertions and checks of parameters, as the kernel has them: a failed one halts. */
#define chDbgAssert(c, remark) \
  do { \
    if (CH_DBG_ENABLE_ASSERTS != FALSE) { \
      if (!(c)) { \
        chSysHalt(remark); \
      } \
    } \
  } while (0)
#define chDbgCheck(c) \
  do { \
    if (CH_DBG_ENABLE_CHECKS != FALSE) { \
      if (!(c)) { \
        chSysHalt(""); \
      } \
    } \
  } while (0)
#define chDbgCheckClassI rtcheck_chDbgCheckClassI
#define chDbgCheckClassS rtcheck_chDbgCheckClassS
/* I-class. */
void rtcheck_chDbgCheckClassI(void);
/* S-class. */
void rtcheck_chDbgCheckClassS(void);

/* The system. */
#define chSysIntegrityCheckI rtcheck_chSysIntegrityCheckI
#define chSysGetRealtimeCounterX rtcheck_chSysGetRealtimeCounterX
#define chSysPolledDelayX rtcheck_chSysPolledDelayX
#define chSysIsCounterWithinX rtcheck_chSysIsCounterWithinX
#define chSysGetIdleThreadX rtcheck_chSysGetIdleThreadX
/* I-class. */
bool rtcheck_chSysIntegrityCheckI(unsigned int);
/* X-class. */
rtcnt_t rtcheck_chSysGetRealtimeCounterX(void);
void rtcheck_chSysPolledDelayX(rtcnt_t);
bool rtcheck_chSysIsCounterWithinX(rtcnt_t, rtcnt_t, rtcnt_t);
thread_t *rtcheck_chSysGetIdleThreadX(void);

/* Threads and their register. */
#define chThdAddRef rtcheck_chThdAddRef
#define chThdRelease rtcheck_chThdRelease
#define chThdGetTicksX rtcheck_chThdGetTicksX
#define chThdGetWorkingAreaX rtcheck_chThdGetWorkingAreaX
#define chThdQueueIsEmptyI rtcheck_chThdQueueIsEmptyI
#define chRegFirstThread rtcheck_chRegFirstThread
#define chRegNextThread rtcheck_chRegNextThread
#define chRegFindThreadByName rtcheck_chRegFindThreadByName
#define chRegFindThreadByPointer rtcheck_chRegFindThreadByPointer
#define chRegFindThreadByWorkingArea rtcheck_chRegFindThreadByWorkingArea
#define chRegGetThreadNameX rtcheck_chRegGetThreadNameX
#define chRegSetThreadNameX rtcheck_chRegSetThreadNameX
/* Normal class. */
thread_t *rtcheck_chThdAddRef(thread_t *);
void rtcheck_chThdRelease(thread_t *);
thread_t *rtcheck_chRegFirstThread(void);
thread_t *rtcheck_chRegNextThread(thread_t *);
thread_t *rtcheck_chRegFindThreadByName(const char *);
thread_t *rtcheck_chRegFindThreadByPointer(thread_t *);
thread_t *rtcheck_chRegFindThreadByWorkingArea(stkalign_t *);
/* I-class. */
bool rtcheck_chThdQueueIsEmptyI(threads_queue_t *);
/* X-class. */
systime_t rtcheck_chThdGetTicksX(thread_t *);
stkalign_t *rtcheck_chThdGetWorkingAreaX(thread_t *);
const char *rtcheck_chRegGetThreadNameX(thread_t *);
void rtcheck_chRegSetThreadNameX(thread_t *, const char *);

/* Mutexes and conditions. */
#define chMtxUnlockAllS rtcheck_chMtxUnlockAllS
#define chMtxQueueNotEmptyS rtcheck_chMtxQueueNotEmptyS
#define chCondWaitTimeout rtcheck_chCondWaitTimeout
#define chCondWaitTimeoutS rtcheck_chCondWaitTimeoutS
/* Normal class. */
msg_t rtcheck_chCondWaitTimeout(condition_variable_t *, sysinterval_t);
/* S-class. */
bool rtcheck_chMtxQueueNotEmptyS(mutex_t *);
msg_t rtcheck_chCondWaitTimeoutS(condition_variable_t *, sysinterval_t);
/* S-class that may wake. */
void rtcheck_chMtxUnlockAllS(void);

/* Events, messages, mailboxes, timers. */
#define chEvtGetAndClearFlags rtcheck_chEvtGetAndClearFlags
#define chEvtGetAndClearFlagsI rtcheck_chEvtGetAndClearFlagsI
#define chEvtGetAndClearEventsI rtcheck_chEvtGetAndClearEventsI
#define chEvtAddEventsI rtcheck_chEvtAddEventsI
#define chEvtIsListeningI rtcheck_chEvtIsListeningI
#define chEvtGetEventsX rtcheck_chEvtGetEventsX
#define chMsgWaitS rtcheck_chMsgWaitS
#define chMsgWaitTimeout rtcheck_chMsgWaitTimeout
#define chMsgWaitTimeoutS rtcheck_chMsgWaitTimeoutS
#define chMsgPoll rtcheck_chMsgPoll
#define chMsgPollS rtcheck_chMsgPollS
#define chMsgReleaseS rtcheck_chMsgReleaseS
#define chMsgIsPendingI rtcheck_chMsgIsPendingI
#define chMBGetSizeI rtcheck_chMBGetSizeI
#define chMBPeekI rtcheck_chMBPeekI
#define chMBResumeX rtcheck_chMBResumeX
#define chVTGetTimersStateI rtcheck_chVTGetTimersStateI
#define chVTGetTimeStamp rtcheck_chVTGetTimeStamp
#define chVTGetTimeStampI rtcheck_chVTGetTimeStampI
#define chVTResetTimeStampI rtcheck_chVTResetTimeStampI
/* Normal class. */
eventflags_t rtcheck_chEvtGetAndClearFlags(event_listener_t *);
thread_t *rtcheck_chMsgWaitTimeout(sysinterval_t);
thread_t *rtcheck_chMsgPoll(void);
systimestamp_t rtcheck_chVTGetTimeStamp(void);
/* I-class. */
eventflags_t rtcheck_chEvtGetAndClearFlagsI(event_listener_t *);
eventmask_t rtcheck_chEvtGetAndClearEventsI(eventmask_t);
eventmask_t rtcheck_chEvtAddEventsI(eventmask_t);
bool rtcheck_chEvtIsListeningI(event_source_t *);
bool rtcheck_chMsgIsPendingI(thread_t *);
size_t rtcheck_chMBGetSizeI(mailbox_t *);
msg_t rtcheck_chMBPeekI(mailbox_t *);
bool rtcheck_chVTGetTimersStateI(sysinterval_t *);
systimestamp_t rtcheck_chVTGetTimeStampI(void);
void rtcheck_chVTResetTimeStampI(void);
/* S-class. */
thread_t *rtcheck_chMsgWaitS(void);
thread_t *rtcheck_chMsgWaitTimeoutS(sysinterval_t);
thread_t *rtcheck_chMsgPollS(void);
void rtcheck_chMsgReleaseS(thread_t *, msg_t);
/* X-class. */
eventmask_t rtcheck_chEvtGetEventsX(void);
void rtcheck_chMBResumeX(mailbox_t *);

/* Heaps and the core's memory. */
#define chHeapObjectInit rtcheck_chHeapObjectInit
#define chHeapStatus rtcheck_chHeapStatus
#define chHeapGetSize rtcheck_chHeapGetSize
#define chCoreGetStatusX rtcheck_chCoreGetStatusX
/* Normal class. */
size_t rtcheck_chHeapStatus(memory_heap_t *, size_t *, size_t *);
/* X-class. */
void rtcheck_chHeapObjectInit(memory_heap_t *, void *, size_t);
size_t rtcheck_chHeapGetSize(const void *);
size_t rtcheck_chCoreGetStatusX(void);

/*
 * Pools. Where a pool is empty the kernel calls its provider, inside the critical section. So a provider is NULL or the
 * kernel's own, which wakes none; any other is no name of these macros, and the compiler says so.
 */
#define RTCHECK_PROVIDER_NULL 0
#define RTCHECK_PROVIDER_chCoreAllocAlignedI 0
typedef struct ch_memory_pool_t {
  uint32_t o[8];
} memory_pool_t;
typedef struct ch_guarded_memory_pool_t {
  uint32_t o[16];
} guarded_memory_pool_t;
#define MEMORYPOOL_DECL(name, size, align, provider) memory_pool_t name = {{RTCHECK_PROVIDER_##provider}}
#define GUARDEDMEMORYPOOL_DECL(name, size, align) guarded_memory_pool_t name = {{0}}
#define chPoolObjectInit(pool, size, provider) rtcheck_chPoolObjectInit(pool, size, 4U, RTCHECK_PROVIDER_##provider)
#define chPoolObjectInitAligned(pool, size, align, provider) \
  rtcheck_chPoolObjectInit(pool, size, align, RTCHECK_PROVIDER_##provider)
#define chPoolLoadArray rtcheck_chPoolLoadArray
#define chPoolAlloc rtcheck_chPoolAlloc
#define chPoolAllocI rtcheck_chPoolAllocI
#define chPoolFree rtcheck_chPoolFree
#define chPoolFreeI rtcheck_chPoolFreeI
#define chPoolAdd rtcheck_chPoolFree
#define chPoolAddI rtcheck_chPoolFreeI
#define chGuardedPoolObjectInit rtcheck_chGuardedPoolObjectInit
#define chGuardedPoolLoadArray rtcheck_chGuardedPoolLoadArray
#define chGuardedPoolAllocTimeout rtcheck_chGuardedPoolAllocTimeout
#define chGuardedPoolAllocTimeoutS rtcheck_chGuardedPoolAllocTimeoutS
#define chGuardedPoolAllocI rtcheck_chGuardedPoolAllocI
#define chGuardedPoolFree rtcheck_chGuardedPoolFree
#define chGuardedPoolFreeI rtcheck_chGuardedPoolFreeI
#define chGuardedPoolGetCounterI rtcheck_chGuardedPoolGetCounterI
/* Normal class. */
void rtcheck_chPoolLoadArray(memory_pool_t *, void *, size_t);
void *rtcheck_chPoolAlloc(memory_pool_t *);
void rtcheck_chPoolFree(memory_pool_t *, void *);
void rtcheck_chGuardedPoolLoadArray(guarded_memory_pool_t *, void *, size_t);
void *rtcheck_chGuardedPoolAllocTimeout(guarded_memory_pool_t *, sysinterval_t);
void rtcheck_chGuardedPoolFree(guarded_memory_pool_t *, void *);
/* I-class. */
void *rtcheck_chPoolAllocI(memory_pool_t *);
void rtcheck_chPoolFreeI(memory_pool_t *, void *);
void *rtcheck_chGuardedPoolAllocI(guarded_memory_pool_t *);
cnt_t rtcheck_chGuardedPoolGetCounterI(guarded_memory_pool_t *);
/* I-class that may wake. */
void rtcheck_chGuardedPoolFreeI(guarded_memory_pool_t *, void *);
/* S-class. */
void *rtcheck_chGuardedPoolAllocTimeoutS(guarded_memory_pool_t *, sysinterval_t);
/* X-class. */
void rtcheck_chPoolObjectInit(memory_pool_t *, size_t, unsigned int, int);
void rtcheck_chGuardedPoolObjectInit(guarded_memory_pool_t *, size_t);

/* FIFOs of objects: a guarded pool and a mailbox. */
typedef struct ch_objects_fifo {
  uint32_t o[24];
} objects_fifo_t;
#define chFifoObjectInit rtcheck_chFifoObjectInit
#define chFifoTakeObjectI rtcheck_chFifoTakeObjectI
#define chFifoTakeObjectTimeout rtcheck_chFifoTakeObjectTimeout
#define chFifoTakeObjectTimeoutS rtcheck_chFifoTakeObjectTimeoutS
#define chFifoReturnObject rtcheck_chFifoReturnObject
#define chFifoReturnObjectI rtcheck_chFifoReturnObjectI
#define chFifoSendObject rtcheck_chFifoSendObject
#define chFifoSendObjectI rtcheck_chFifoSendObjectI
#define chFifoReceiveObjectI rtcheck_chFifoReceiveObjectI
#define chFifoReceiveObjectTimeout rtcheck_chFifoReceiveObjectTimeout
#define chFifoReceiveObjectTimeoutS rtcheck_chFifoReceiveObjectTimeoutS
/* Normal class. */
void *rtcheck_chFifoTakeObjectTimeout(objects_fifo_t *, sysinterval_t);
void rtcheck_chFifoReturnObject(objects_fifo_t *, void *);
void rtcheck_chFifoSendObject(objects_fifo_t *, void *);
msg_t rtcheck_chFifoReceiveObjectTimeout(objects_fifo_t *, void *, sysinterval_t);
/* I-class. */
void *rtcheck_chFifoTakeObjectI(objects_fifo_t *);
/* I-class that may wake. */
void rtcheck_chFifoReturnObjectI(objects_fifo_t *, void *);
void rtcheck_chFifoSendObjectI(objects_fifo_t *, void *);
msg_t rtcheck_chFifoReceiveObjectI(objects_fifo_t *, void *);
/* S-class. */
void *rtcheck_chFifoTakeObjectTimeoutS(objects_fifo_t *, sysinterval_t);
msg_t rtcheck_chFifoReceiveObjectTimeoutS(objects_fifo_t *, void *, sysinterval_t);
/* X-class. */
void rtcheck_chFifoObjectInit(objects_fifo_t *, size_t, size_t, unsigned int, void *, msg_t *);

/* Measurements of time. */
typedef struct ch_time_measurement {
  rtcnt_t best;
  rtcnt_t worst;
  rtcnt_t last;
  ucnt_t n;
  rttime_t cumulative;
} time_measurement_t;
#define chTMObjectInit rtcheck_chTMObjectInit
#define chTMStartMeasurementX rtcheck_chTMStartMeasurementX
#define chTMStopMeasurementX rtcheck_chTMStopMeasurementX
#define chTMChainMeasurementToX rtcheck_chTMChainMeasurementToX
/* X-class. */
void rtcheck_chTMObjectInit(time_measurement_t *);
void rtcheck_chTMStartMeasurementX(time_measurement_t *);
void rtcheck_chTMStopMeasurementX(time_measurement_t *);
void rtcheck_chTMChainMeasurementToX(time_measurement_t *, time_measurement_t *);

#endif
