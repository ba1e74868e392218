/* futex(2), under liburcu's names. */
#ifndef URCU_OVER_RCU_FUTEX_H
#define URCU_OVER_RCU_FUTEX_H
#include <errno.h>
#include <stdint.h>
#include <time.h>
#include <urcu/arch.h>
#include <urcu/assert.h>
#include <urcu/syscall-compat.h>

#define FUTEX_WAIT 0
#define FUTEX_WAKE 1
/* For systems without futex(2). */
#define compat_futex_noasync futex_noasync
#define compat_futex_async futex_async

/* In strict C, as by -std=c11, unistd.h has it not. */
#if !defined(__cplusplus) && !defined(__USE_MISC)
long syscall(long number, ...);
#endif

static inline int futex(int32_t *at, int what, int32_t value, const struct timespec *time,
                        int32_t *other, int32_t other_value) {
    return (int)syscall(__NR_futex, at, what, value, time, other, other_value);
}

static inline int futex_noasync(int32_t *at, int what, int32_t value, const struct timespec *time,
                                int32_t *other, int32_t other_value) {
    return futex(at, what, value, time, other, other_value);
}

static inline int futex_async(int32_t *at, int what, int32_t value, const struct timespec *time,
                              int32_t *other, int32_t other_value) {
    return futex(at, what, value, time, other, other_value);
}
#endif
