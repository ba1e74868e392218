/* The older name of urcu/futex.h. */
#include <urcu/futex.h>
