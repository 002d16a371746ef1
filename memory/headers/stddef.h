/* What the C files here need of C's own header, which the kit doesn't have. */
typedef __SIZE_TYPE__ size_t;
#define NULL ((void *)0)
