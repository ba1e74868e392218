/* What liburcu does not have: reports, counters, and words on misuse. */
#include "own.h"
#include <fcntl.h>
#include <stdatomic.h>
#include <sys/socket.h>
#include <sys/wait.h>
#ifndef NO_EXTRAS

static struct urcu_stall said;
static atomic_int times;
static void hear(const struct urcu_stall *stall, void *context) {
    if (atomic_fetch_add((atomic_int *)context, 1) == 0) said = *stall;
}

static void *wait_once(void *it) {
    synchronize_rcu();
    return it;
}

/* A thread that holds a grace period up is told of, by its depth. */
static int stalls(void) {
    struct holder holder;
    pthread_t waiter;
    EXTRA(on_stall)(50, hear, &times);
    open_section(&holder);
    if (pthread_create(&waiter, 0, wait_once, 0)) return 0;
    for (int i = 0; i < 1000 && !times; i++) rest(10);
    close_section(&holder);
    pthread_join(waiter, 0);
    end_holder(&holder);
    EXTRA(on_stall)(10000, 0, 0);
    if (!times) return puts("no stall was told of"), 0;
#ifdef USE_QSBR
    if (said.depth != 0) return 0;
#else
    if (said.depth != 1) return 0;
#endif
    return said.thread > 0 && said.registered_at && said.milliseconds >= 50;
}

/* Standard error is written to a pipe meanwhile. */
static int line_of_stall(void) {
    struct holder holder;
    pthread_t waiter;
    char text[2000] = "";
    int ends[2], own = dup(2);
    if (pipe(ends)) return 0;
    dup2(ends[1], 2);
    EXTRA(on_stall)(50, 0, 0);
    open_section(&holder);
    if (pthread_create(&waiter, 0, wait_once, 0)) return 0;
    ssize_t got = read(ends[0], text, sizeof text - 1);
    close_section(&holder);
    pthread_join(waiter, 0);
    end_holder(&holder);
    EXTRA(on_stall)(10000, 0, 0);
    dup2(own, 2);
#ifdef USE_QSBR
    const char *how = "which passes no quiescent state";
#else
    const char *how = "which is in a section, 1 deep";
#endif
    int right = got > 0 && strstr(text, "a grace period waits since 0.") && strstr(text, how) &&
                strstr(text, "registered at 0x");
    if (!right) printf("standard error: %s\n", text);
    return right;
}

static void nothing(struct rcu_head *head) {
    (void)head;
}

/* What waits is counted, and how long the oldest does; and how long the grace period took. */
static int waiting(void) {
    struct holder holder;
    struct urcu_counters now;
    struct rcu_head heads[2];
    open_section(&holder);
    call_rcu(&heads[0], nothing);
    rest(100);
    call_rcu(&heads[1], nothing);
    EXTRA(counters)(&now);
    int right = now.callbacks_waiting == 2 && now.oldest_waits >= 90 && now.threads >= 2;
    close_section(&holder);
    rcu_barrier();
    end_holder(&holder);
    EXTRA(counters)(&now);
    unsigned long longest = 0;
    for (int i = 0; i < URCU_LAST_ROUNDS; i++)
        if (now.last[i] > longest) longest = now.last[i];
    return right && longest >= 50000 && now.callbacks_waiting == 0 && now.oldest_waits == 0;
}

static int counts(void) {
    struct urcu_counters before, now;
    struct rcu_head heads[3];
    char text[200];
    EXTRA(counters)(&before);
    synchronize_rcu();
    for (int i = 0; i < 3; i++) call_rcu(&heads[i], nothing);
    rcu_barrier();
    rest(20);
    EXTRA(counters)(&now);
    if (EXTRA(counters_text)(text, sizeof text) < 60 || !strstr(text, "grace periods")) return 0;
    return now.grace_periods > before.grace_periods + 1 && now.callbacks_waiting == 0 &&
           now.callbacks_run >= before.callbacks_run + 3 && now.threads >= 1;
}

int reports(unsigned n) {
    (void)n;
    return stalls() && line_of_stall() && counts() && waiting();
}

/* ---- misuse ends the process, and says why */

#define TEXT_OF(it) #it
#define TEXT(it) TEXT_OF(it)

static void unlocks(void) {
    rcu_register_thread();
    rcu_read_unlock();
}

static void unregisters_in_a_section(void) {
    rcu_register_thread();
    rcu_read_lock();
    rcu_unregister_thread();
}

static void waits_in_a_section(void) {
    rcu_register_thread();
    rcu_read_lock();
    synchronize_rcu();
}

static void wait_in_it(struct rcu_head *head) {
    (void)head;
    rcu_barrier();
}

static void waits_in_a_callback(void) {
    static struct rcu_head head;
    call_rcu(&head, wait_in_it);
    rcu_barrier();
}

static void barrier_in_a_section(void) {
    rcu_register_thread();
    rcu_read_lock();
    rcu_barrier();
    rcu_read_unlock();
    abort();
}

static void show(const char *what, const char *line, int end) {
    if (write(end, what, strlen(what)) < 0 || write(end, line, strlen(line)) < 0) _exit(1);
}

/* What a debugger finds in a core. */
static void show_kept(int number) {
    (void)number;
    show(" kept: ", EXTRA(misuse), 2);
}

/* The child: it does it, and what is said of it goes to the pipe. */
static void to_standard_error(int end) {
    dup2(end, 2);
    signal(SIGABRT, show_kept);
}

static void hear_misuse(const char *line, void *context) {
    show("heard: ", line, *(int *)context);
}

static void to_a_function(int end) {
    static int to;
    to = end;
    EXTRA(on_misuse)(hear_misuse, &to);
}

/* Stands in for the C library's: what would go to /dev/log. The sanitizers have one of their own. */
static int log_end;
#if defined(__SANITIZE_ADDRESS__) || defined(__SANITIZE_THREAD__)
enum { HAS_LOG = 0 };
#else
enum { HAS_LOG = 1 };
ssize_t sendto(int made, const void *text, size_t length, int flags, __CONST_SOCKADDR_ARG to,
               socklen_t size) {
    const struct sockaddr *log = to.__sockaddr__;
    (void)made, (void)flags, (void)size;
    if (log->sa_family != AF_UNIX || strcmp(log->sa_data, "/dev/log")) return -1;
    return write(log_end, text, length);
}
#endif

static void to_the_log_by_null(int end) {
    log_end = end;
    dup2(open("/dev/null", O_WRONLY), 2);
}

static void to_the_log(int end) {
    log_end = end;
    close(2);
}

/* Whether the child that does it is told so, by words that have these in them, and aborts. */
static int is_told(void (*misuse)(void), void (*to)(int), const char *words) {
    int ends[2], status;
    char text[500] = "";
    if (pipe(ends)) return 0;
    pid_t child = fork();
    if (child == 0) {
        to(ends[1]);
        alarm(20);
        misuse();
        _exit(0);
    }
    close(ends[1]);
    waitpid(child, &status, 0);
    ssize_t got = read(ends[0], text, sizeof text - 1);
    close(ends[0]);
    if (got > 0 && WIFSIGNALED(status) && WTERMSIG(status) == SIGABRT && strstr(text, words))
        return 1;
    printf("not told: %s, but %s\n", words, text);
    return 0;
}

/* It is told to standard error, to a function, or to the log of a daemon; and kept. */
static int misuse_of_a_callback(void) {
    static const char words[] = ": rcu_barrier: a callback waits for itself";
    char kept[100], heard[100];
    snprintf(kept, sizeof kept, "%s\n kept: urcu over rcu: ", words);
    snprintf(heard, sizeof heard, "heard: urcu over rcu: %s%s", TEXT(URCU_FLAVOUR_), words);
    int right = is_told(waits_in_a_callback, to_standard_error, kept);
    right &= is_told(waits_in_a_callback, to_a_function, heard);
    if (!HAS_LOG) return right;
    right &= is_told(waits_in_a_callback, to_the_log, words);
    right &= is_told(waits_in_a_callback, to_the_log, "]: urcu over rcu: ");
    return right & is_told(waits_in_a_callback, to_the_log_by_null, "<10>");
}

int misuse(unsigned n) {
    int right = misuse_of_a_callback();
    (void)n;
#ifndef USE_QSBR
    static const struct {
        void (*does)(void);
        const char *words;
    } rows[] = {
        {unlocks, "rcu_read_unlock: the thread is in no section"},
        {unregisters_in_a_section, "rcu_unregister_thread: the thread is in a section"},
        {waits_in_a_section, "synchronize_rcu: the thread is in a section"},
        {barrier_in_a_section, "rcu_barrier: the thread is in a section"},
    };
    for (unsigned i = 0; i < sizeof rows / sizeof *rows; i++)
        right &= is_told(rows[i].does, to_standard_error, rows[i].words);
#else
    (void)unlocks, (void)unregisters_in_a_section, (void)waits_in_a_section;
    (void)barrier_in_a_section;
#endif
    return right;
}
#endif
