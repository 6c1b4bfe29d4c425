#ifndef BARE_STDIO_H
#define BARE_STDIO_H
int printf(const char *, ...);
#endif
