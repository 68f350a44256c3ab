/* The most used functions of the standard's header, for the checker. */
#ifndef STDIO_H
#define STDIO_H

#include "stdarg.h"
#include "stddef.h"

#define EOF (-1)

typedef struct rtcheck_file {
  uint32_t o[4];
} FILE;
extern FILE *stdin, *stdout, *stderr;

/* Normal class: the C library writes and reads by a channel's driver, and takes memory from the kernel's core. */
int printf(const char *, ...);
int fprintf(FILE *, const char *, ...);
int vprintf(const char *, va_list);
int vfprintf(FILE *, const char *, va_list);
int sprintf(char *, const char *, ...);
int snprintf(char *, size_t, const char *, ...);
int vsprintf(char *, const char *, va_list);
int vsnprintf(char *, size_t, const char *, va_list);
int scanf(const char *, ...);
int sscanf(const char *, const char *, ...);
int puts(const char *);
int putchar(int);
int getchar(void);
int fputs(const char *, FILE *);
int fputc(int, FILE *);
int fgetc(FILE *);
char *fgets(char *, int, FILE *);
int fflush(FILE *);

#endif
