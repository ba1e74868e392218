// Forks, and what ends the process.
#include "wording.h"

#include <csignal>
#include <cstdlib>
#include <string>
#include <sys/wait.h>
#include <unistd.h>

enum { GUARD = 60 }; // seconds, after which a child that stands still ends

static bool child_is_right(bool has_handlers) {
    holder in_region; // whose thread is not in the child
    if (has_handlers) over_rcu::before_fork();
    pid_t child = fork();
    if (child == 0) {
        if (has_handlers) over_rcu::after_fork_in_child();
        alarm(GUARD);
        dom.lock();
        dom.unlock();
        std::rcu_synchronize();
        int value = 0;
        if (has_handlers) {
            std::rcu_retire(&value, [](int* it) { *it = 1; });
            std::rcu_barrier();
        }
        _exit(has_handlers && !value);
    }
    if (has_handlers) over_rcu::after_fork_in_parent();
    int status = -1;
    waitpid(child, &status, 0);
    return status == 0;
}

TEST_WITH_FORKS(process_fork) {
    CHECK(child_is_right(false));
    CHECK(child_is_right(true));
    std::rcu_barrier();
}

// Whether it ends the process, with a line that says why.
template <class F> static bool dies(const char* why, F&& it) {
    int ends[2];
    if (pipe(ends)) return false;
    over_rcu::before_fork();
    pid_t child = fork();
    if (child == 0) {
        over_rcu::after_fork_in_child();
        dup2(ends[1], STDERR_FILENO);
        alarm(GUARD);
        it();
        _exit(0);
    }
    over_rcu::after_fork_in_parent();
    close(ends[1]);
    std::string said;
    char text[400];
    for (ssize_t count; (count = read(ends[0], text, sizeof text)) > 0;)
        said.append(text, static_cast<std::size_t>(count));
    close(ends[0]);
    int status = 0;
    waitpid(child, &status, 0);
    bool is_right = WIFSIGNALED(status) && WTERMSIG(status) == SIGABRT;
    return is_right && said.find(why) != std::string::npos;
}

static void stay() {
    for (;;) pause();
}

TEST_WITH_FORKS(process_misuse) {
    const char* in_section = "the thread is in a section";
    CHECK(dies("the thread is in no section", [] { dom.unlock(); }));
    CHECK(dies("the thread is in no section", [] {
        dom.lock();
        dom.unlock();
        dom.unlock();
    }));
    CHECK(dies(in_section, [] {
        region mine(dom);
        std::rcu_synchronize();
    }));
    CHECK(dies("rcu_barrier: the thread is in a region", [] {
        region mine(dom);
        std::rcu_retire(new int);
        std::rcu_barrier();
    }));
    CHECK(dies("waits for itself", [] {
        std::rcu_retire(new int, [](int*) { std::rcu_barrier(); });
        stay();
    }));
    CHECK(dies("terminat", [] { // an evaluation that exits by an exception
        std::rcu_retire(new int, [](int*) { throw 1; });
        stay();
    }));
}
