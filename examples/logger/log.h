/* Lines of the log. */
#ifndef LOG_H
#define LOG_H

#include "hal.h"

extern event_source_t log_level_changed;

void log_text(BaseSequentialStream *out, const char *text);
void log_number(BaseSequentialStream *out, uint32_t number);
uint32_t log_level(void);
void log_set_level(uint32_t to);

#endif
