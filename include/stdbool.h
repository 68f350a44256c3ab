/* bool, true and false, for the checker. */
#ifndef STDBOOL_H
#define STDBOOL_H

#include "rtcheck_ch.h"

#define __bool_true_false_are_defined 1

#endif
