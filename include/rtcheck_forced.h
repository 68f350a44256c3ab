/*
 * What tools/preprocess.sh includes before each source: a compiler's own words, as the checked C says them.
 *
 * Attributes are left out. That is right for those that only place, align or describe what they stand at (section,
 * aligned, packed, used, weak, noreturn, format, ..). Those that make code run, `constructor`, `destructor` and
 * `cleanup`, and those that give a function another's body, `alias`, `ifunc` and `weakref`, are looked for by
 * tools/preprocess.sh, which keeps attributes by RTCHECK_KEEP_ATTRIBUTES for that, and refuses them.
 */
#ifndef RTCHECK_FORCED_H
#define RTCHECK_FORCED_H

#ifdef RTCHECK_KEEP_ATTRIBUTES
#define __attribute __attribute__
#else
#define __attribute__(x)
#define __attribute(x)
#endif
#define __extension__
#define __inline inline
#define __inline__ inline
#define __volatile volatile
#define __volatile__ volatile
#define __const const
#define __const__ const
#define __signed signed
#define __signed__ signed
#define __restrict restrict
#define __restrict__ restrict

/* Names of functions are texts that nothing depends on. */
#define __func__ ""
#define __FUNCTION__ ""
#define __PRETTY_FUNCTION__ ""

/* The value of the first operand. */
#define __builtin_expect(x, expected) ((long)(x))
/* The flow goes on: more ways than the program has, and none fewer. */
#define __builtin_unreachable() ((void)0)

#endif
