/* Sections inlined, by liburcu's switch _LGPL_SOURCE, or by URCU_INLINE_SECTIONS: those of memb,
 * signal and bp; in mb those within another one; and in qsbr the quiescent state if no grace period
 * has begun since the latest one. They repeat the steps of the layer's sections.c,
 * readers_by_word.c and readers_by_state.c, on which they rest, and call the library if it shows
 * them no slot: in a thread's first section, in a signal handler that comes in the midst of a call,
 * on a system without membarrier(2). They add no step of their own (tests/model.py). In mb the
 * outermost section is two calls of the proved archive, and no step of those stands here. */
#ifndef URCU_OVER_RCU_SECTIONS_H
#define URCU_OVER_RCU_SECTIONS_H
#include <stdbool.h>
#ifdef __cplusplus
extern "C" {
#endif

#if defined(_LGPL_SOURCE) || defined(URCU_INLINE_SECTIONS)
/* The first words of a thread's slot and of what it has. The library's sections.c compares them
 * with its own. A program that was built by them needs a library with the same, so the names of
 * what it reads end in a number, which changes with them. */
struct urcu_slot_1 {
    void *seat;
    unsigned long depth;
    bool wake_requested;
};
struct urcu_reader_1 {
    struct urcu_slot_1 *shown; /* null if the library's calls open and close the sections */
    unsigned long begun;        /* qsbr: the grace period of the latest quiescent state */
};

/* Returns false if the library's call has to open the section. */
static inline bool urcu_enters_(struct urcu_reader_1 *reader) {
    struct urcu_slot_1 *slot = __atomic_load_n(&reader->shown, __ATOMIC_RELAXED);
    unsigned long depth;
    if (__builtin_expect(!slot, 0)) return false;
    depth = __atomic_load_n(&slot->depth, __ATOMIC_RELAXED);
    __atomic_store_n(&slot->depth, depth + 1, __ATOMIC_RELAXED);
    __atomic_signal_fence(__ATOMIC_SEQ_CST);
    return true;
}

enum urcu_exit_ { URCU_LEFT_, URCU_LEFT_AWAITED_, URCU_BY_CALL_ };

/* Says whether a grace period waits for this section's end, or that the library's call has to
 * close it. */
static inline enum urcu_exit_ urcu_exits_(struct urcu_reader_1 *reader) {
    struct urcu_slot_1 *slot = __atomic_load_n(&reader->shown, __ATOMIC_RELAXED);
    unsigned long depth;
    if (__builtin_expect(!slot, 0)) return URCU_BY_CALL_;
    depth = __atomic_load_n(&slot->depth, __ATOMIC_RELAXED);
    if (__builtin_expect(depth != 1, 0)) {
        if (!depth) return URCU_BY_CALL_; /* which ends the process with a line */
        __atomic_store_n(&slot->depth, depth - 1, __ATOMIC_RELAXED);
        return URCU_LEFT_;
    }
    __atomic_store_n(&slot->depth, 0, __ATOMIC_RELEASE);
    __atomic_signal_fence(__ATOMIC_SEQ_CST);
    return __atomic_load_n(&slot->wake_requested, __ATOMIC_SEQ_CST) ? URCU_LEFT_AWAITED_ : URCU_LEFT_;
}

/* Enter and leave a section within another one. Return false if the library's call has to. */
static inline bool urcu_nests_(struct urcu_reader_1 *reader) {
    struct urcu_slot_1 *slot = __atomic_load_n(&reader->shown, __ATOMIC_RELAXED);
    unsigned long depth = slot ? __atomic_load_n(&slot->depth, __ATOMIC_RELAXED) : 0;
    if (depth) __atomic_store_n(&slot->depth, depth + 1, __ATOMIC_RELAXED);
    return depth != 0;
}

static inline bool urcu_unnests_(struct urcu_reader_1 *reader) {
    struct urcu_slot_1 *slot = __atomic_load_n(&reader->shown, __ATOMIC_RELAXED);
    unsigned long depth = slot ? __atomic_load_n(&slot->depth, __ATOMIC_RELAXED) : 0;
    if (depth > 1) __atomic_store_n(&slot->depth, depth - 1, __ATOMIC_RELAXED);
    return depth > 1;
}

#define URCU_READER_OF_(f) \
    extern __thread struct urcu_reader_1 urcu_##f##_reader_1 \
        __attribute__((tls_model("initial-exec")))
#define URCU_INLINED_OF_(f) \
    URCU_READER_OF_(f); \
    void urcu_##f##_got_quiet_1(void); \
    static inline void urcu_##f##_inlined_read_lock(void) { \
        if (!urcu_enters_(&urcu_##f##_reader_1)) urcu_##f##_read_lock(); \
    } \
    static inline void urcu_##f##_inlined_read_unlock(void) { \
        enum urcu_exit_ exit = urcu_exits_(&urcu_##f##_reader_1); \
        if (__builtin_expect(exit == URCU_LEFT_, 1)) return; \
        if (exit == URCU_LEFT_AWAITED_) urcu_##f##_got_quiet_1(); \
        else urcu_##f##_read_unlock(); \
    } \
    struct urcu_##f##_inlined_ /* (so that the macro ends in a semicolon) */
URCU_INLINED_OF_(memb);
URCU_INLINED_OF_(signal);
URCU_INLINED_OF_(bp);
URCU_READER_OF_(mb);
static inline void urcu_mb_inlined_read_lock(void) {
    if (!urcu_nests_(&urcu_mb_reader_1)) urcu_mb_read_lock();
}
static inline void urcu_mb_inlined_read_unlock(void) {
    if (!urcu_unnests_(&urcu_mb_reader_1)) urcu_mb_read_unlock();
}
URCU_READER_OF_(qsbr);
extern unsigned long urcu_qsbr_begun_1; /* the grace period that began latest */
static inline void urcu_qsbr_inlined_quiescent_state(void) {
    unsigned long begun = __atomic_load_n(&urcu_qsbr_begun_1, __ATOMIC_ACQUIRE);
    if (__builtin_expect(begun != urcu_qsbr_reader_1.begun, 0)) urcu_qsbr_quiescent_state();
}
#define urcu_memb_read_lock urcu_memb_inlined_read_lock
#define urcu_memb_read_unlock urcu_memb_inlined_read_unlock
#define urcu_signal_read_lock urcu_signal_inlined_read_lock
#define urcu_signal_read_unlock urcu_signal_inlined_read_unlock
#define urcu_bp_read_lock urcu_bp_inlined_read_lock
#define urcu_bp_read_unlock urcu_bp_inlined_read_unlock
#define urcu_mb_read_lock urcu_mb_inlined_read_lock
#define urcu_mb_read_unlock urcu_mb_inlined_read_unlock
#define urcu_qsbr_quiescent_state urcu_qsbr_inlined_quiescent_state
#endif

/* The thread sanitizer sees no step of a library that was built without it. So a program that is
 * built with it marks where its sections end, and the library marks where grace periods do. */
#if defined(__SANITIZE_THREAD__)
#define URCU_MARKS_
#elif defined(__has_feature)
#if __has_feature(thread_sanitizer)
#define URCU_MARKS_
#endif
#endif
#ifdef URCU_MARKS_
void __tsan_release(void *at);
#define URCU_MARKED_OF_(f) \
    static inline void urcu_##f##_marked_read_unlock(void) { \
        __tsan_release((void *)&urcu_##f##_flavor); \
        urcu_##f##_read_unlock(); \
    } \
    struct urcu_##f##_marked_ /* (so that the macro ends in a semicolon) */
URCU_MARKED_OF_(memb);
URCU_MARKED_OF_(mb);
URCU_MARKED_OF_(signal);
URCU_MARKED_OF_(bp);
#undef urcu_memb_read_unlock
#undef urcu_mb_read_unlock
#undef urcu_signal_read_unlock
#undef urcu_bp_read_unlock
#define urcu_memb_read_unlock urcu_memb_marked_read_unlock
#define urcu_mb_read_unlock urcu_mb_marked_read_unlock
#define urcu_signal_read_unlock urcu_signal_marked_read_unlock
#define urcu_bp_read_unlock urcu_bp_marked_read_unlock
#endif

#ifdef __cplusplus
}
#endif
#endif
