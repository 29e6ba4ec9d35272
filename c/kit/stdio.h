/* See stddef.h. */
#ifndef KIT_STDIO_H
#define KIT_STDIO_H

#include <stddef.h>

typedef struct _IO_FILE FILE;
extern FILE *stdin, *stdout, *stderr;

int printf(const char *format, ...);
int fprintf(FILE *to, const char *format, ...);
int snprintf(char *to, size_t size, const char *format, ...);
int sscanf(const char *from, const char *format, ...);
char *fgets(char *line, int size, FILE *from);
int fflush(FILE *to);

#endif
