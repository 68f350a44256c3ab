/*
 * Lists of arguments, for the checker: so far that functions can hand them on. A definition of a function with `...`
 * isn't in the checked C.
 */
#ifndef STDARG_H
#define STDARG_H

typedef void *va_list;

#define va_arg(list, type) (*(type *)(list))
#define va_copy(to, from) ((void)((to) = (from)))
#define va_end(list) ((void)(list))

#endif
