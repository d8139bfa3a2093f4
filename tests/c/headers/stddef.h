/* The kit's clang comes without C headers: what include/urgyelpat.h and the programs here take of <stddef.h>. */
typedef __SIZE_TYPE__ size_t;
#define NULL ((void *)0)
