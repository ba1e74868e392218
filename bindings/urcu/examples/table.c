/* A table of names that threads look up while another one adds and removes entries: liburcu-cds's
 * hash table over the flavour bp. Build it by
 *     cc table.c $(pkg-config --cflags --libs rcu-bp) -lurcu-cds
 * It prints: found 1, removed 999 */
#include <pthread.h>
#include <stdio.h>
#include <stdlib.h>
#include <string.h>
#include <urcu-bp.h>
#include <urcu/rculfhash.h>

enum { NAMES = 1000 };

struct entry {
    struct cds_lfht_node node;
    struct rcu_head head;
    char name[16];
    int number;
};
static struct cds_lfht *table;

/* FNV-1a: for keys that strangers choose take a keyed hash, as SipHash. */
static unsigned long hash(const char *name) {
    unsigned long sum = 14695981039346656037ul;
    for (; *name; name++) sum = (sum ^ (unsigned char)*name) * 1099511628211ul;
    return sum;
}

static int has_name(struct cds_lfht_node *node, const void *name) {
    return !strcmp(caa_container_of(node, struct entry, node)->name, name);
}

static void free_entry(struct rcu_head *head) {
    free(caa_container_of(head, struct entry, head));
}

static void add(int number) {
    struct entry *entry = calloc(1, sizeof *entry);
    if (!entry) exit(1);
    entry->number = number;
    snprintf(entry->name, sizeof entry->name, "name %d", number);
    cds_lfht_node_init(&entry->node);
    rcu_read_lock();
    cds_lfht_add(table, hash(entry->name), &entry->node);
    rcu_read_unlock();
}

/* Returns the number of a name, or -1 if the table has no such name. */
static int find(const char *name) {
    struct cds_lfht_iter at;
    int number = -1;
    rcu_read_lock();
    cds_lfht_lookup(table, hash(name), has_name, name, &at);
    struct cds_lfht_node *node = cds_lfht_iter_get_node(&at);
    if (node) number = caa_container_of(node, struct entry, node)->number;
    rcu_read_unlock();
    return number;
}

/* Removes the entries of all numbers from this one on. Returns how many there were. */
static int remove_from(int number) {
    struct cds_lfht_iter at;
    struct cds_lfht_node *node;
    int removed = 0;
    rcu_read_lock();
    for (cds_lfht_first(table, &at); (node = cds_lfht_iter_get_node(&at));
         cds_lfht_next(table, &at)) {
        struct entry *entry = caa_container_of(node, struct entry, node);
        if (entry->number < number || cds_lfht_del(table, node)) continue;
        call_rcu(&entry->head, free_entry);
        removed++;
    }
    rcu_read_unlock();
    return removed;
}

static void *read_names(void *found) {
    for (int number = 0; number < NAMES; number++) {
        char name[16];
        snprintf(name, sizeof name, "name %d", number);
        if (find(name) == number) ++*(int *)found;
    }
    return 0;
}

int main(void) {
    pthread_t reader;
    int found = 0;
    table = cds_lfht_new(64, 64, 0, CDS_LFHT_AUTO_RESIZE, 0);
    if (!table) return 1;
    for (int number = 0; number < NAMES; number++) add(number);
    if (pthread_create(&reader, 0, read_names, &found)) return 1;
    int removed = remove_from(1); /* all but "name 0", beside the reader */
    pthread_join(reader, 0);
    printf("found %d, removed %d\n", find("name 0") == 0 && found >= 1, removed);
    removed += remove_from(0);
    rcu_barrier();
    return cds_lfht_destroy(table, 0) ? 1 : 0;
}
