/*
 * The stub header of rtcheck: it stands in place of the headers of ChibiOS/RT 6.1 and of the C library
 * while an application is preprocessed for the checker (docs/PREPROCESSING.md).
 *
 * It has the types, macros and kernel calls that the checker knows, and nothing else. docs/KERNEL.md has
 * the same calls in the same order. The sizes of the kernel's objects, and the values of macros that
 * depend on a kernel's configuration, are this project's own. Compile no firmware with it.
 */
#ifndef RTCHECK_CH_H
#define RTCHECK_CH_H

/* Integers. char is 8 bits and unsigned, short 16, int and long 32, long long 64, pointers 32. */
typedef unsigned char uint8_t;
typedef signed char int8_t;
typedef unsigned short uint16_t;
typedef short int16_t;
typedef unsigned int uint32_t;
typedef int int32_t;
typedef unsigned long long uint64_t;
typedef long long int64_t;
typedef uint32_t size_t;
typedef uint32_t uintptr_t;
typedef _Bool bool;

/* The kernel's numbers. */
typedef int32_t msg_t;
typedef int32_t cnt_t;
typedef uint32_t tprio_t;
typedef uint32_t sysinterval_t;
typedef uint32_t systime_t;
typedef uint32_t eventmask_t;
typedef uint32_t eventflags_t;
typedef uint32_t syssts_t;

/* Functions of threads and of timers. */
typedef void (*tfunc_t)(void *);
typedef void (*vtfunc_t)(void *);

/* Threads. */
typedef struct ch_thread {
  uint32_t o[16];
} thread_t;
typedef thread_t *thread_reference_t;
typedef struct ch_thread_descriptor {
  const char *name;
  uint32_t *wbase;
  uint32_t *wend;
  tprio_t prio;
  tfunc_t funcp;
  void *arg;
} thread_descriptor_t;

/* The kernel's objects. */
typedef struct ch_semaphore_t {
  uint32_t o[8];
} semaphore_t;
typedef struct ch_binary_semaphore_t {
  uint32_t o[8];
} binary_semaphore_t;
typedef struct ch_mutex_t {
  uint32_t o[8];
} mutex_t;
typedef struct ch_condition_variable_t {
  uint32_t o[8];
} condition_variable_t;
typedef struct ch_event_source_t {
  uint32_t o[8];
} event_source_t;
typedef struct ch_event_listener_t {
  uint32_t o[8];
} event_listener_t;
typedef struct ch_mailbox_t {
  uint32_t o[8];
} mailbox_t;
typedef struct ch_threads_queue_t {
  uint32_t o[8];
} threads_queue_t;
typedef struct ch_virtual_timer_t {
  uint32_t o[8];
} virtual_timer_t;
typedef struct ch_memory_heap_t {
  uint32_t o[8];
} memory_heap_t;

/* Plain words. */
#define NULL ((void *)0)
#define true 1
#define false 0

/* Priorities, messages and times. */
#define IDLEPRIO 1
#define LOWPRIO 2
#define NORMALPRIO 128
#define HIGHPRIO 255
#define MSG_OK 0
#define MSG_TIMEOUT (-1)
#define MSG_RESET (-2)
#define TIME_IMMEDIATE 0U
#define TIME_INFINITE 4294967295U
#define TIME_MS2I(x) (x)
#define TIME_S2I(x) ((x) * 1000)
#define chThdSleepMilliseconds(x) chThdSleep(TIME_MS2I(x))
#define chThdSleepSeconds(x) chThdSleep(TIME_S2I(x))

/* Definitions of handlers, thread functions and working areas. */
#define CH_IRQ_HANDLER(id) void id(void)
#define THD_FUNCTION(n, a) void n(void *a)
#define THD_WORKING_AREA(s, n) uint32_t s[(n) / 4]

/* The names of the abstraction layer for the same. */
#define OSAL_IRQ_HANDLER CH_IRQ_HANDLER
#define OSAL_IRQ_PROLOGUE CH_IRQ_PROLOGUE
#define OSAL_IRQ_EPILOGUE CH_IRQ_EPILOGUE
#define osalSysLock chSysLock
#define osalSysUnlock chSysUnlock
#define osalSysLockFromISR chSysLockFromISR
#define osalSysUnlockFromISR chSysUnlockFromISR

/* The system, and the ends of a handler. */
void chSysInit(void);
void chSysDisable(void);
void chSysSuspend(void);
void chSysEnable(void);
void chSysLock(void);
void chSysUnlock(void);
void chSysLockFromISR(void);
void chSysUnlockFromISR(void);
void CH_IRQ_PROLOGUE(void);
void CH_IRQ_EPILOGUE(void);
void chSysHalt(const char *);

/* The normal class. */
thread_t *chThdCreateStatic(void *, size_t, tprio_t, tfunc_t, void *);
thread_t *chThdCreate(const thread_descriptor_t *);
thread_t *chThdCreateSuspended(const thread_descriptor_t *);
thread_t *chThdStart(thread_t *);
tprio_t chThdSetPriority(tprio_t);
void chThdSleepUntil(systime_t);
systime_t chThdSleepUntilWindowed(systime_t, systime_t);
void chThdTerminate(thread_t *);
void chThdSleep(sysinterval_t);
void chThdYield(void);
void chThdResume(thread_reference_t *, msg_t);
msg_t chThdWait(thread_t *);
void chSemReset(semaphore_t *, cnt_t);
msg_t chSemWait(semaphore_t *);
msg_t chSemWaitTimeout(semaphore_t *, sysinterval_t);
void chSemSignal(semaphore_t *);
msg_t chSemSignalWait(semaphore_t *, semaphore_t *);
msg_t chBSemWait(binary_semaphore_t *);
msg_t chBSemWaitTimeout(binary_semaphore_t *, sysinterval_t);
void chBSemReset(binary_semaphore_t *, bool);
void chBSemSignal(binary_semaphore_t *);
void chMtxLock(mutex_t *);
bool chMtxTryLock(mutex_t *);
void chMtxUnlock(mutex_t *);
void chMtxUnlockAll(void);
void chCondSignal(condition_variable_t *);
void chCondBroadcast(condition_variable_t *);
msg_t chCondWait(condition_variable_t *);
void chEvtRegisterMask(event_source_t *, event_listener_t *, eventmask_t);
void chEvtUnregister(event_source_t *, event_listener_t *);
eventmask_t chEvtGetAndClearEvents(eventmask_t);
eventmask_t chEvtAddEvents(eventmask_t);
void chEvtSignal(thread_t *, eventmask_t);
void chEvtBroadcastFlags(event_source_t *, eventflags_t);
void chEvtBroadcast(event_source_t *);
eventmask_t chEvtWaitOne(eventmask_t);
eventmask_t chEvtWaitAny(eventmask_t);
eventmask_t chEvtWaitAll(eventmask_t);
eventmask_t chEvtWaitOneTimeout(eventmask_t, sysinterval_t);
eventmask_t chEvtWaitAnyTimeout(eventmask_t, sysinterval_t);
eventmask_t chEvtWaitAllTimeout(eventmask_t, sysinterval_t);
msg_t chMsgSend(thread_t *, msg_t);
thread_t *chMsgWait(void);
void chMsgRelease(thread_t *, msg_t);
msg_t chMsgGet(thread_t *);
void chMBReset(mailbox_t *);
msg_t chMBPostTimeout(mailbox_t *, msg_t, sysinterval_t);
msg_t chMBPostAheadTimeout(mailbox_t *, msg_t, sysinterval_t);
msg_t chMBFetchTimeout(mailbox_t *, msg_t *, sysinterval_t);
void chVTSet(virtual_timer_t *, sysinterval_t, vtfunc_t, void *);
void chVTReset(virtual_timer_t *);
bool chVTIsArmed(virtual_timer_t *);
systime_t chVTGetSystemTime(void);
void *chHeapAlloc(memory_heap_t *, size_t);
void chHeapFree(void *);
void *chCoreAlloc(size_t);

/* The ends of a thread. */
void chThdExit(msg_t);
void chThdExitS(msg_t);

/* I-class calls that may wake a thread. */
thread_t *chThdCreateI(const thread_descriptor_t *);
thread_t *chThdStartI(thread_t *);
void chThdResumeI(thread_reference_t *, msg_t);
void chThdDequeueNextI(threads_queue_t *, msg_t);
void chThdDequeueAllI(threads_queue_t *, msg_t);
void chSemResetI(semaphore_t *, cnt_t);
void chSemSignalI(semaphore_t *);
void chSemAddCounterI(semaphore_t *, cnt_t);
void chBSemResetI(binary_semaphore_t *, bool);
void chBSemSignalI(binary_semaphore_t *);
void chCondSignalI(condition_variable_t *);
void chCondBroadcastI(condition_variable_t *);
void chEvtSignalI(thread_t *, eventmask_t);
void chEvtBroadcastFlagsI(event_source_t *, eventflags_t);
void chEvtBroadcastI(event_source_t *);
void chMBResetI(mailbox_t *);
msg_t chMBPostI(mailbox_t *, msg_t);
msg_t chMBPostAheadI(mailbox_t *, msg_t);
msg_t chMBFetchI(mailbox_t *, msg_t *);

/* I-class calls that wake none. */
thread_t *chThdCreateSuspendedI(const thread_descriptor_t *);
void chSemFastSignalI(semaphore_t *);
void chSemFastWaitI(semaphore_t *);
cnt_t chSemGetCounterI(semaphore_t *);
bool chBSemGetStateI(binary_semaphore_t *);
size_t chMBGetUsedCountI(mailbox_t *);
size_t chMBGetFreeCountI(mailbox_t *);
void chVTSetI(virtual_timer_t *, sysinterval_t, vtfunc_t, void *);
void chVTDoSetI(virtual_timer_t *, sysinterval_t, vtfunc_t, void *);
void chVTResetI(virtual_timer_t *);
void chVTDoResetI(virtual_timer_t *);
bool chVTIsArmedI(virtual_timer_t *);
bool chSchIsRescRequiredI(void);
void *chCoreAllocI(size_t);

/* S-class calls that always reschedule. */
void chSchRescheduleS(void);
void chThdSleepS(sysinterval_t);
msg_t chThdSuspendS(thread_reference_t *);
msg_t chCondWaitS(condition_variable_t *);

/* S-class calls that may wake a thread and don't reschedule. */
void chMtxUnlockS(mutex_t *);

/* S-class calls that leave a due reschedule due. */
msg_t chThdSuspendTimeoutS(thread_reference_t *, sysinterval_t);
void chThdResumeS(thread_reference_t *, msg_t);
msg_t chThdEnqueueTimeoutS(threads_queue_t *, sysinterval_t);
msg_t chSemWaitS(semaphore_t *);
msg_t chSemWaitTimeoutS(semaphore_t *, sysinterval_t);
msg_t chBSemWaitS(binary_semaphore_t *);
msg_t chBSemWaitTimeoutS(binary_semaphore_t *, sysinterval_t);
void chMtxLockS(mutex_t *);
bool chMtxTryLockS(mutex_t *);
msg_t chMBPostTimeoutS(mailbox_t *, msg_t, sysinterval_t);
msg_t chMBPostAheadTimeoutS(mailbox_t *, msg_t, sysinterval_t);
msg_t chMBFetchTimeoutS(mailbox_t *, msg_t *, sysinterval_t);

/* Calls that are allowed in any state. */
void chRegSetThreadName(const char *);
thread_t *chThdGetSelfX(void);
tprio_t chThdGetPriorityX(void);
bool chThdShouldTerminateX(void);
bool chThdTerminatedX(thread_t *);
systime_t chVTGetSystemTimeX(void);
sysinterval_t chVTTimeElapsedSinceX(systime_t);
void chSemObjectInit(semaphore_t *, cnt_t);
void chBSemObjectInit(binary_semaphore_t *, bool);
void chMtxObjectInit(mutex_t *);
void chCondObjectInit(condition_variable_t *);
void chEvtObjectInit(event_source_t *);
void chMBObjectInit(mailbox_t *, msg_t *, size_t);
void chVTObjectInit(virtual_timer_t *);
void chThdQueueObjectInit(threads_queue_t *);

/* The status pair. */
syssts_t chSysGetStatusAndLockX(void);
void chSysRestoreStatusX(syssts_t);

#endif
