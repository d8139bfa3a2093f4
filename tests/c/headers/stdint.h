/* The kit's clang comes without C headers: what include/urgyelpat.h and the programs here take of <stdint.h>. */
typedef __INT32_TYPE__ int32_t;
typedef __UINT32_TYPE__ uint32_t;
typedef __UINT64_TYPE__ uint64_t;
#define INT32_MAX __INT32_MAX__
#define INT32_MIN (-INT32_MAX - 1)
#define UINT32_MAX __UINT32_MAX__
#define SIZE_MAX __SIZE_MAX__
