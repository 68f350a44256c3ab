/* The kernel's header, for the checker. */
#ifndef CH_H
#define CH_H

#include "rtcheck_kernel.h"

#endif
