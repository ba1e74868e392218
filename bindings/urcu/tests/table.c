/* liburcu-cds's resizable hash table over a proved engine: it takes the flavour as a table of
 * calls. Three threads read, two add and delete, and the table grows and shrinks beneath them. A
 * key that stays is found in every section; a node that was freed is found in none. Built for one
 * flavour, with -lurcu-cds. */
#include "own.h"
#include <urcu/rculfhash.h>

enum { READERS = 3, UPDATERS = 2, STAY = 200, COME = 2000, ROUNDS = 6 };

struct entry {
    struct cds_lfht_node node;
    struct rcu_head head;
    unsigned long key, twice;
};
static struct cds_lfht *table;
static unsigned long wrong_entries, missing, ended;

static unsigned long hash(unsigned long key) {
    return key * 0x9e3779b97f4a7c15ul >> 20;
}

static int is_key(struct cds_lfht_node *node, const void *key) {
    return caa_container_of(node, struct entry, node)->key == *(const unsigned long *)key;
}

static struct entry *find(unsigned long key) {
    struct cds_lfht_iter iter;
    cds_lfht_lookup(table, hash(key), is_key, &key, &iter);
    struct cds_lfht_node *node = cds_lfht_iter_get_node(&iter);
    return node ? caa_container_of(node, struct entry, node) : 0;
}

static void add(unsigned long key) {
    struct entry *it = calloc(1, sizeof *it);
    if (!it) exit(2);
    it->key = key;
    it->twice = 2 * key;
    rcu_read_lock();
    if (cds_lfht_add_unique(table, hash(key), is_key, &key, &it->node) != &it->node)
        uatomic_inc(&wrong_entries);
    rcu_read_unlock();
}

static void free_entry(struct rcu_head *head) {
    struct entry *it = caa_container_of(head, struct entry, head);
    CMM_STORE_SHARED(it->twice, 2 * it->key + 1);
    free(it);
}

static void delete(unsigned long key) {
    rcu_read_lock();
    struct entry *it = find(key);
    if (!it || cds_lfht_del(table, &it->node)) uatomic_inc(&wrong_entries);
    else call_rcu(&it->head, free_entry);
    rcu_read_unlock();
}

static void *read_on(void *it) {
    rcu_register_thread();
    for (unsigned long key = 0; uatomic_read(&ended) < UPDATERS; key++) {
        rcu_read_lock();
        if (!find(key % STAY)) uatomic_inc(&missing);
        struct entry *other = find(STAY + key % (UPDATERS * COME));
        if (other && CMM_LOAD_SHARED(other->twice) != 2 * other->key) uatomic_inc(&wrong_entries);
        rcu_read_unlock();
        quiescent();
    }
    rcu_unregister_thread();
    return it;
}

static void *change(void *it) {
    unsigned long first = STAY + (unsigned long)it * COME;
    rcu_register_thread();
    for (int round = 0; round < ROUNDS; round++) {
        for (unsigned long key = first; key < first + COME; key++) add(key);
        quiescent();
        for (unsigned long key = first; key < first + COME; key++) delete(key);
        quiescent();
    }
    rcu_unregister_thread();
    uatomic_inc(&ended);
    return 0;
}

static unsigned long count(void) {
    unsigned long found = 0;
    struct cds_lfht_iter iter;
    struct entry *it;
    rcu_read_lock();
    cds_lfht_for_each_entry(table, &iter, it, node) found++;
    rcu_read_unlock();
    return found;
}

int main(void) {
    pthread_t threads[READERS + UPDATERS];
    rcu_register_thread();
    table = cds_lfht_new(1, 1, 0, CDS_LFHT_AUTO_RESIZE | CDS_LFHT_ACCOUNTING, 0);
    if (!table) return 2;
    for (unsigned long key = 0; key < STAY; key++) add(key);
    offline();
    for (long i = 0; i < READERS + UPDATERS; i++) {
        void *(*run)(void *) = i < READERS ? read_on : change;
        if (pthread_create(&threads[i], 0, run, (void *)(i - READERS))) return 2;
    }
    for (int i = 0; i < READERS + UPDATERS; i++) pthread_join(threads[i], 0);
    online();
    unsigned long stayed = count();
    for (unsigned long key = 0; key < STAY; key++) delete(key);
    offline();
    int kept = cds_lfht_destroy(table, 0);
    rcu_barrier();
    online();
    rcu_unregister_thread();
    printf("%lu entries stayed, %lu were missing, %lu were wrong\n", stayed, missing,
           wrong_entries);
    return stayed != STAY || missing || wrong_entries || kept;
}
