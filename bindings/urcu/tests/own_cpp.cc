// The interface in C++: sections in a constructor before main, and in a destructor of a thread.
#include "orders.h"
#ifdef USE_QSBR
#include <urcu-qsbr.h>
#elif defined(USE_BP)
#include <urcu-bp.h>
#else
#include <urcu.h>
#endif
#include <cstdlib>
#include <thread>
#include <urcu/list.h>
#include <urcu/over-rcu.h>
#include <urcu/rculist.h>
#include <urcu/ref.h>
#include <urcu/uatomic.h>

struct node {
    struct rcu_head head;
    struct cds_list_head list;
    int value;
};
static CDS_LIST_HEAD(nodes);
static int seen, freed;

static void read_all() {
    struct node *it;
    rcu_read_lock();
    cds_list_for_each_entry_rcu(it, &nodes, list) uatomic_add(&seen, it->value);
    rcu_read_unlock();
}

static void free_node(struct rcu_head *head) {
    std::free(caa_container_of(head, struct node, head));
    uatomic_inc(&freed);
}

struct early {
    early() {
        rcu_register_thread();
        read_all();
        synchronize_rcu();
    }
} reads_before_main;

struct late {
    ~late() { read_all(); }
};
static thread_local late reads_at_the_end;

int main() {
    for (int i = 1; i <= 3; i++) {
        node *it = static_cast<node *>(std::calloc(1, sizeof(node)));
        it->value = i;
        cds_list_add_rcu(&it->list, &nodes);
    }
    std::thread([] {
        rcu_register_thread();
        (void)&reads_at_the_end;
        read_all();
    }).join();
    node *first = cds_list_entry(nodes.next, node, list);
    cds_list_del_rcu(&first->list);
    synchronize_rcu();
    call_rcu(&first->head, free_node);
    rcu_barrier();
    rcu_unregister_thread();
    return seen == 12 && freed == 1 && orders() ? 0 : 1;
}
