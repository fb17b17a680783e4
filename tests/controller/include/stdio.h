/* For a program on a bare core. */
#ifndef STDIO_H
#define STDIO_H

#define stderr 2

/* The formats are %s, %.16s, %.*s, %u and %02x. */
int printf(const char *format, ...);
int fprintf(int stream, const char *format, ...);

#endif
