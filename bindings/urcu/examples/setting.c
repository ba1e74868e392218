/* One thread reads a setting while another one replaces it. The calls are liburcu's, flavour bp: no
 * thread registers, and one that blocks outside a section delays nothing. Build it by
 *     cc setting.c $(pkg-config --cflags --libs rcu-bp)
 * It prints: read 1000 */
#include <pthread.h>
#include <stdio.h>
#include <stdlib.h>
#include <urcu-bp.h>

enum { VALUES = 1000 };

struct setting {
    struct rcu_head head;
    int value;
};
static struct setting *shown;

static void free_setting(struct rcu_head *head) {
    free(caa_container_of(head, struct setting, head));
}

static void replace(int value) {
    struct setting *setting = malloc(sizeof *setting);
    if (!setting) exit(1);
    setting->value = value;
    struct setting *old = rcu_xchg_pointer(&shown, setting);
    if (old) call_rcu(&old->head, free_setting); /* frees it after a grace period */
}

static void *read_settings(void *last) {
    while (*(int *)last < VALUES) {
        rcu_read_lock();
        *(int *)last = rcu_dereference(shown)->value;
        rcu_read_unlock();
    }
    return 0;
}

int main(void) {
    pthread_t reader;
    int last = 0;
    replace(0);
    if (pthread_create(&reader, 0, read_settings, &last)) return 1;
    for (int value = 1; value <= VALUES; value++) replace(value);
    pthread_join(reader, 0);
    rcu_barrier(); /* waits until each callback that call_rcu was given before has run */
    printf("read %d\n", last);
    free(shown);
    return 0;
}
