/* size_t and NULL, and what else of the standard's header the checked C can say. */
#ifndef STDDEF_H
#define STDDEF_H

#include "rtcheck_ch.h"

typedef int32_t ptrdiff_t;

/*
 * A value that isn't known, so that a test of it goes both ways; as an array's size or a static initialiser it is
 * refused.
 */
#define offsetof(type, member) ((size_t) & ((type *)0)->member)

#endif
