/* The older name of urcu/uatomic.h. */
#include <urcu/uatomic.h>
