/* The most used functions of the standard's header, for the checker. */
#ifndef STDLIB_H
#define STDLIB_H

#include "stddef.h"

#define EXIT_SUCCESS 0
#define EXIT_FAILURE 1
#define RAND_MAX 2147483647

/* No kernel call. */
int atoi(const char *);
long atol(const char *);
long long atoll(const char *);
long strtol(const char *, char **, int);
unsigned long strtoul(const char *, char **, int);
long long strtoll(const char *, char **, int);
unsigned long long strtoull(const char *, char **, int);
int abs(int);
long labs(long);
int rand(void);
void srand(unsigned int);
void exit(int);
void abort(void);
/* Normal class: the heap of the C library takes its memory from the kernel's core, which locks. */
void *malloc(size_t);
void *calloc(size_t, size_t);
void *realloc(void *, size_t);
void free(void *);

/* These call what they are given, any number of times. */
static inline void qsort(void *base, size_t count, size_t size, int (*compare)(const void *, const void *)) {
  size_t k;
  for (k = 1U; k < count; k++) {
    (void)compare(base, (const void *)((const char *)base + k * size));
  }
}
static inline void *bsearch(const void *key, const void *base, size_t count, size_t size,
                            int (*compare)(const void *, const void *)) {
  size_t k;
  for (k = 0U; k < count; k++) {
    if (compare(key, (const void *)((const char *)base + k * size)) == 0) {
      return (void *)((const char *)base + k * size);
    }
  }
  return NULL;
}

#endif
