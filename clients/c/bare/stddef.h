// For a compiler that comes without C's headers, as the Rattle toolchain's: what this folder's neighbours use, and no more.
#ifndef BARE_STDDEF_H
#define BARE_STDDEF_H
typedef __SIZE_TYPE__ size_t;
#define NULL ((void *)0)
#endif
