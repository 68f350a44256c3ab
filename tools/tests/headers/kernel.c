/* Each macro that rtcheck_kernel.h has for a kernel call, and each object's macro, once. */
#include "ch.h"
#include "assert.h"

static SEMAPHORE_DECL(sem, 1);
static BSEMAPHORE_DECL(bsem, true);
static MUTEX_DECL(mutex);
static CONDVAR_DECL(condition);
static EVENTSOURCE_DECL(source);
static MAILBOX_DECL(mailbox, letters, 4);
static _THREADS_QUEUE_DECL(queue);
static MEMORYPOOL_DECL(pool, 16, 4, chCoreAllocAlignedI);
static GUARDEDMEMORYPOOL_DECL(guarded, 16, 4);
static msg_t letters[4];
static objects_fifo_t fifo;
static memory_heap_t heap;
static time_measurement_t time, later;
static event_listener_t listener;
static uint8_t bytes[64] __attribute__((aligned(4), section(".ram1")));

static THD_WORKING_AREA(area, THD_WORKING_AREA_SIZE(128));
static __inline THD_FUNCTION(worker, p) {
  chDbgCheck(p != NULL);
  chDbgAssert(sizeof area > 0U, "no stack");
  assert(__builtin_expect(p != NULL, 1));
}
static const thread_descriptor_t descriptor =
  THD_DESCRIPTOR("worker", THD_WORKING_AREA_BASE(area), THD_WORKING_AREA_END(area), NORMALPRIO, worker, NULL);

static void on_event(eventid_t id) {
  (void)id;
}
static const evhandler_t handlers[] = {on_event, on_event};

CH_FAST_IRQ_HANDLER(VectorFast) {
}

void times(systime_t start, systime_t end) {
  sysinterval_t all = chTimeS2I(1) + chTimeMS2I(1) + chTimeUS2I(1) + chTimeDiffX(start, end);
  systime_t now = chTimeAddX(start, chTimeI2S(all) + chTimeI2MS(all) + chTimeI2US(all));
  if (chTimeIsInRangeX(now, start, end) || chVTIsSystemTimeWithin(start, end) || chVTIsSystemTimeWithinX(start, end)) {
    chThdSleepMicroseconds(10);
  }
  chSysPolledDelayX(chSysGetRealtimeCounterX());
  (void)chSysIsCounterWithinX(1U, 2U, 3U);
  chTMObjectInit(&time);
  chTMStartMeasurementX(&time);
  chTMChainMeasurementToX(&time, &later);
  chTMStopMeasurementX(&later);
  (void)chVTGetTimeStamp();
}

void threads(void) {
  thread_t *thread = chThdCreateFromHeap(&heap, 128U, "heap", NORMALPRIO, worker, NULL);
  thread = chThdAddRef(thread);
  chThdRelease(thread);
  thread = chThdCreateFromMemoryPool(&pool, "pool", NORMALPRIO, worker, NULL);
  (void)chThdCreate(&descriptor);
  (void)chThdGetTicksX(thread);
  (void)chThdGetWorkingAreaX(thread);
  (void)chSysGetIdleThreadX();
  for (thread = chRegFirstThread(); thread != NULL; thread = chRegNextThread(thread)) {
    chRegSetThreadNameX(thread, chRegGetThreadNameX(thread));
  }
  (void)chRegFindThreadByName("main");
  (void)chRegFindThreadByPointer(thread);
  (void)chRegFindThreadByWorkingArea(THD_WORKING_AREA_BASE(area));
}

void events(void) {
  chEvtRegister(&source, &listener, 3);
  chEvtRegisterMaskWithFlags(&source, &listener, EVENT_MASK(2), 1U);
  chEvtDispatch(handlers, chEvtWaitAny(ALL_EVENTS));
  (void)chEvtGetAndClearFlags(&listener);
  (void)chEvtGetEventsX();
  (void)chMsgWaitTimeout(TIME_IMMEDIATE);
  (void)chMsgPoll();
  (void)chCondWaitTimeout(&condition, TIME_US2I(100));
  chSemResetWithMessage(&sem, 0, MSG_RESET);
  chMBResumeX(&mailbox);
}

void memory(void) {
  size_t total, largest;
  void *p = chHeapAllocAligned(&heap, 16U, 8U);
  chHeapObjectInit(&heap, bytes, sizeof bytes);
  (void)chHeapStatus(&heap, &total, &largest);
  (void)chHeapGetSize(p);
  (void)chCoreGetStatusX();
  (void)chCoreAllocAligned(4U, 4U);
  (void)chCoreAllocAlignedWithOffset(4U, 4U, 0U);
  chPoolObjectInit(&pool, 16U, NULL);
  chPoolObjectInitAligned(&pool, 16U, 8U, chCoreAllocAlignedI);
  chPoolLoadArray(&pool, bytes, 2U);
  chPoolFree(&pool, chPoolAlloc(&pool));
  chPoolAdd(&pool, p);
  chGuardedPoolObjectInit(&guarded, 16U);
  chGuardedPoolLoadArray(&guarded, bytes, 2U);
  chGuardedPoolFree(&guarded, chGuardedPoolAllocTimeout(&guarded, TIME_INFINITE));
  chFifoObjectInit(&fifo, 16U, 4U, 4U, bytes, letters);
  p = chFifoTakeObjectTimeout(&fifo, TIME_INFINITE);
  chFifoSendObject(&fifo, p);
  (void)chFifoReceiveObjectTimeout(&fifo, &p, TIME_IMMEDIATE);
  chFifoReturnObject(&fifo, p);
}

void locked(void) {
  void *p;
  sysinterval_t left;
  chSysLock();
  chDbgCheckClassI();
  chDbgCheckClassS();
  (void)chSysIntegrityCheckI(1U);
  (void)chThdQueueIsEmptyI(&queue);
  chThdDoDequeueNextI(&queue, MSG_OK);
  chSemResetWithMessageI(&sem, 0, MSG_RESET);
  chBSemSignalI(&bsem);
  (void)chEvtGetAndClearFlagsI(&listener);
  (void)chEvtGetAndClearEventsI(ALL_EVENTS);
  (void)chEvtAddEventsI(1U);
  (void)chEvtIsListeningI(&source);
  (void)chMsgIsPendingI(chThdGetSelfX());
  (void)chMBGetSizeI(&mailbox);
  (void)chMBPeekI(&mailbox);
  (void)chVTGetTimersStateI(&left);
  (void)chVTGetTimeStampI();
  chVTResetTimeStampI();
  (void)chCoreAllocAlignedI(4U, 4U);
  (void)chCoreAllocAlignedWithOffsetI(4U, 4U, 0U);
  chPoolFreeI(&pool, chPoolAllocI(&pool));
  chPoolAddI(&pool, NULL);
  (void)chGuardedPoolAllocI(&guarded);
  (void)chGuardedPoolGetCounterI(&guarded);
  chGuardedPoolFreeI(&guarded, chGuardedPoolAllocTimeoutS(&guarded, TIME_INFINITE));
  (void)chFifoTakeObjectI(&fifo);
  p = chFifoTakeObjectTimeoutS(&fifo, TIME_INFINITE);
  chFifoSendObjectI(&fifo, p);
  (void)chFifoReceiveObjectI(&fifo, &p);
  (void)chFifoReceiveObjectTimeoutS(&fifo, &p, TIME_INFINITE);
  chFifoReturnObjectI(&fifo, p);
  (void)chMtxQueueNotEmptyS(&mutex);
  chMtxUnlockAllS();
  (void)chCondWaitTimeoutS(&condition, TIME_INFINITE);
  (void)chMsgWaitS();
  (void)chMsgWaitTimeoutS(TIME_INFINITE);
  chMsgReleaseS(chMsgPollS(), MSG_OK);
  chSchRescheduleS();
  chSysUnlock();
}
