/* The older name of urcu/ref.h. */
#include <urcu/ref.h>
