/*
 * Assertions, for the checker, which ends the flow where one fails. As in C99 7.2 each inclusion looks at NDEBUG
 * anew.
 */
#include "rtcheck_ch.h"

#undef assert
#ifdef NDEBUG
#define assert(e) ((void)0)
#else
#define assert(e) ((e) ? (void)0 : chSysHalt("assert"))
#endif
