/* How the word where the C library keeps a mutex's kind marks a mutex of libpazdrig_pthread.so. The recorder reads it
 * too. */
#ifndef PZ_PRELOAD_KIND_H
#define PZ_PRELOAD_KIND_H
#include <stdint.h>

/* The C library has no such kind, so without this library each call returns EINVAL. */
#define MARK      0x7a61000cu
#define KIND_MASK (~0x7000u)
#define PLAIN     0x4000u
#define TYPE_AT   12 /* two bits: the type of pthread_mutexattr_settype */
#define DESTROYED 0xffffffffu

/* An exclusive or, since compilers make of a masked comparison an access to one byte of a register and one to all of
 * it, for which some processors wait. Each call on a private mutex comes here. */
static inline int is_marked(uint32_t kind) { return ((kind ^ MARK) & KIND_MASK) == 0; }
#endif
