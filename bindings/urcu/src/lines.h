/* Lines for who runs a program: how they leave the process. */
#ifndef URCU_LINES_H
#define URCU_LINES_H
#include <syslog.h>
#pragma GCC visibility push(hidden)
#define TEXT_OF(it) #it
#define TEXT_OF_EXPANDED(it) TEXT_OF(it)
#define FLAVOUR TEXT_OF_EXPANDED(URCU_FLAVOUR)
/* To standard error; where that is closed, or is /dev/null, as a daemon's, to the system's log. It
 * may be called in a signal handler. */
void tell(const char *line, int priority);
#pragma GCC visibility pop
#endif
