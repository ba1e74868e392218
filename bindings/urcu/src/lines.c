/* Lines for who runs a program. It adds nothing to the order of threads.
 *
 * syslog(3) takes memory and a lock of the C library's, so a signal handler may not call it. A line
 * goes to its socket as it writes one. */
#ifndef _GNU_SOURCE
#define _GNU_SOURCE
#endif
#include "lines.h"
#include <errno.h>
#include <stdio.h>
#include <string.h>
#include <sys/socket.h>
#include <sys/stat.h>
#include <sys/sysmacros.h>
#include <sys/un.h>
#include <unistd.h>

enum { LONGEST = 512 };

/* Whether a person or a file reads it: a daemon has closed it, or has opened /dev/null there. */
static int is_heard(int file) {
    struct stat it;
    if (fstat(file, &it)) return 0;
    return !S_ISCHR(it.st_mode) || it.st_rdev != makedev(1, 3);
}

static void log_line(const char *line, int priority) {
    struct sockaddr_un log = {.sun_family = AF_UNIX, .sun_path = "/dev/log"};
    char text[LONGEST];
    /* Non-blocking: a log that is full must not hold up a grace period, or an abort. Close-on-exec:
     * another thread may fork and exec meanwhile. */
    int made = socket(AF_UNIX, SOCK_DGRAM | SOCK_CLOEXEC | SOCK_NONBLOCK, 0);
    if (made < 0) return;
    snprintf(text, sizeof text, "<%d>%s[%d]: %s", LOG_USER | priority,
             program_invocation_short_name, (int)getpid(), line);
    /* (MSG_NOSIGNAL: a log that has gone ends no process.) */
    sendto(made, text, strlen(text), MSG_NOSIGNAL, (struct sockaddr *)&log, sizeof log);
    close(made);
}

/* By one write(2), as dprintf(3) makes: lines of two threads do not mix. With no lock: a thread
 * that holds the layer's may find misuse, and so may a signal handler in it. */
void tell(const char *line, int priority) {
    if (!is_heard(STDERR_FILENO) || dprintf(STDERR_FILENO, "%s\n", line) < 0)
        log_line(line, priority);
}
