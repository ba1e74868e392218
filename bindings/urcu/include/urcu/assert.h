/* Assertions, under the names of liburcu 0.14. */
#ifndef URCU_OVER_RCU_ASSERT_H
#define URCU_OVER_RCU_ASSERT_H
#include <assert.h>
#include <urcu/config.h>
#define _urcu_use_expression(it) ((void)sizeof((void)(it), 0))
#ifdef NDEBUG
#define urcu_posix_assert(holds) _urcu_use_expression(holds)
#else
#define urcu_posix_assert(holds) assert(holds)
#endif
#define urcu_assert_debug(holds) _urcu_use_expression(holds)
#endif
