/* Formatted output to streams, for the checker. */
#ifndef CHPRINTF_H
#define CHPRINTF_H

#include "hal_streams.h"
#include "stdarg.h"

/* Normal class. */
int chprintf(BaseSequentialStream *, const char *, ...);
int chvprintf(BaseSequentialStream *, const char *, va_list);
/* No kernel call. */
int chsnprintf(char *, size_t, const char *, ...);
int chvsnprintf(char *, size_t, const char *, va_list);

#endif
