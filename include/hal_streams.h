/* Streams and channels, for the checker: any driver's object may stand where one is asked for. */
#ifndef HAL_STREAMS_H
#define HAL_STREAMS_H

#include "osal.h"

typedef struct {
  uint32_t o[4];
} BaseSequentialStream;
typedef BaseSequentialStream BaseChannel;
typedef struct {
  uint32_t o[4];
  event_source_t event;
} BaseAsynchronousChannel;

#define STM_OK MSG_OK
#define STM_TIMEOUT MSG_TIMEOUT
#define STM_RESET MSG_RESET
#define CHN_NO_ERROR 0U
#define CHN_CONNECTED 1U
#define CHN_DISCONNECTED 2U
#define CHN_INPUT_AVAILABLE 4U
#define CHN_OUTPUT_EMPTY 8U
#define CHN_TRANSMISSION_END 16U

#define streamPut(stream, b) rtcheck_streamPut(stream, b)
#define streamGet(stream) rtcheck_streamGet(stream)
#define streamWrite(stream, bp, n) rtcheck_streamWrite(stream, bp, n)
#define streamRead(stream, bp, n) rtcheck_streamRead(stream, bp, n)
#define chnPutTimeout(channel, b, time) rtcheck_chnPutTimeout(channel, b, time)
#define chnGetTimeout(channel, time) rtcheck_chnGetTimeout(channel, time)
#define chnWriteTimeout(channel, bp, n, time) rtcheck_chnWriteTimeout(channel, bp, n, time)
#define chnReadTimeout(channel, bp, n, time) rtcheck_chnReadTimeout(channel, bp, n, time)
#define chnWrite(channel, bp, n) rtcheck_chnWriteTimeout(channel, bp, n, TIME_INFINITE)
#define chnRead(channel, bp, n) rtcheck_chnReadTimeout(channel, bp, n, TIME_INFINITE)
#define chnGetEventSource(channel) (&(channel)->event)
#define chnAddFlagsI(channel, flags) chEvtBroadcastFlagsI(&(channel)->event, flags)

/* Normal class. */
msg_t rtcheck_streamPut(void *, uint8_t);
msg_t rtcheck_streamGet(void *);
size_t rtcheck_streamWrite(void *, const uint8_t *, size_t);
size_t rtcheck_streamRead(void *, uint8_t *, size_t);
msg_t rtcheck_chnPutTimeout(void *, uint8_t, sysinterval_t);
msg_t rtcheck_chnGetTimeout(void *, sysinterval_t);
size_t rtcheck_chnWriteTimeout(void *, const uint8_t *, size_t, sysinterval_t);
size_t rtcheck_chnReadTimeout(void *, uint8_t *, size_t, sysinterval_t);

#endif
