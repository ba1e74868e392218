/* Words for the thread sanitizer, of liburcu 0.15: what a fence orders, which it does not follow. */
#ifndef URCU_OVER_RCU_ANNOTATE_H
#define URCU_OVER_RCU_ANNOTATE_H
#include <stdio.h>
#include <stdlib.h>
#include <urcu/compiler.h>
enum cmm_annotate { CMM_ANNOTATE_VOID, CMM_ANNOTATE_LOAD, CMM_ANNOTATE_STORE, CMM_ANNOTATE_MB };
typedef enum cmm_annotate cmm_annotate_t;
#define cmm_annotate_define(name) \
    cmm_annotate_t name __attribute__((unused)) = CMM_ANNOTATE_VOID
#if defined(__SANITIZE_THREAD__) || defined(CMM_SANITIZE_THREAD)
#ifdef __cplusplus
extern "C" {
#endif
void __tsan_acquire(void *at);
void __tsan_release(void *at);
#ifdef __cplusplus
}
#endif
#define cmm_annotate_mem_acquire(at) __tsan_acquire((void *)(at))
#define cmm_annotate_mem_release(at) __tsan_release((void *)(at))
#else
#define cmm_annotate_mem_acquire(at) ((void)0)
#define cmm_annotate_mem_release(at) ((void)0)
#endif
#define cmm_annotate_group_mb_acquire(group) ((void)(group))
#define cmm_annotate_group_mb_release(group) ((void)(group))
#define cmm_annotate_group_mem_acquire(group, at) ((void)(group), cmm_annotate_mem_acquire(at))
#define cmm_annotate_group_mem_release(group, at) ((void)(group), cmm_annotate_mem_release(at))
#endif
