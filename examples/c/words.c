/* Counts the words of a text by a map of strings, while another thread looks words up. The key of a
 * word is its keyed hash: whoever writes the text does not choose who shares a bucket. An entry
 * leads to a chain of all words that have this hash.
 *
 * Use: words [FILE]. With no file it makes a text of its own, and takes 12 bits of the hash, so
 * that many words share one. */
#define _DEFAULT_SOURCE
#include "rcu/map.h"
#include <inttypes.h>
#include <pthread.h>
#include <sched.h>
#include <stdatomic.h>
#include <stdio.h>
#include <stdlib.h>
#include <string.h>
#include <unistd.h>

enum { WRITER, READER, CPUS };

/* An entry's words: the hash, and the place of the first word that has it. */
enum { KEY, PLACE, WORDS };

/* A word of the text. The others stay as they are from the put on. */
struct word {
    struct word *next; /* of the same hash */
    const char *text;
    size_t length;
    atomic_uint_fast64_t count;
};

static rcu_t rcu;
static rcu_seat_t seats[CPUS];
static uint64_t hash_key[2], hash_mask = UINT64_MAX;
static struct word *_Atomic latest; /* the word that was put in last: the reader looks it up */
static atomic_bool over;
static uint64_t lost;

static void must(const char *call, uint32_t fault) {
    if (!fault) return;
    fprintf(stderr, "%s: %s\n", call, rcu_fault_text(fault));
    exit(1);
}

static void stop(const char *what) {
    perror(what);
    exit(1);
}

/* ---- the text */

static char *read_file(const char *path) {
    FILE *file = fopen(path, "r");
    size_t length = 0, room = 1 << 16;
    char *text = malloc(room);
    if (!file || !text) stop(path);
    for (size_t got; (got = fread(text + length, 1, room - length - 1, file)) > 0;) {
        length += got;
        if (length + 1 == room && !(text = realloc(text, room *= 2))) abort();
    }
    fclose(file);
    text[length] = 0;
    return text;
}

/* Returns where the next word begins, and its length: 0 behind the last one. */
static const char *next_word(const char *text, size_t *length) {
    static const char spaces[] = " \t\r\n";
    text += strspn(text, spaces);
    *length = strcspn(text, spaces);
    return text;
}

static uint64_t words_in(const char *text) {
    uint64_t words = 0;
    size_t length;
    for (text = next_word(text, &length); length; text = next_word(text + length, &length)) words++;
    return words;
}

/* 20,000 words: small numbers are there more often than large ones. */
static char *make_text(void) {
    enum { COUNT = 20000, ROOM = 8 };
    char *text = malloc(COUNT * ROOM + 1), *at = text;
    if (!text) abort();
    uint64_t random = 1;
    for (unsigned i = 0; i < COUNT; i++) {
        random = random * UINT64_C(6364136223846793005) + UINT64_C(1442695040888963407);
        uint64_t draw = (random >> 33) % 100;
        at += sprintf(at, "n%u ", (unsigned)(draw * draw * ((random >> 40) % 10) / 10));
    }
    return text;
}

/* ---- the hash: SipHash-2-4 */

static uint64_t turn_left(uint64_t word, unsigned bits) {
    return word << bits | word >> (64 - bits);
}

static void mix(uint64_t v[4], unsigned rounds) {
    while (rounds--) {
        v[0] += v[1], v[1] = turn_left(v[1], 13) ^ v[0], v[0] = turn_left(v[0], 32);
        v[2] += v[3], v[3] = turn_left(v[3], 16) ^ v[2];
        v[0] += v[3], v[3] = turn_left(v[3], 21) ^ v[0];
        v[2] += v[1], v[1] = turn_left(v[1], 17) ^ v[2], v[2] = turn_left(v[2], 32);
    }
}

static uint64_t sip_hash(const char *text, size_t length) {
    uint64_t v[4] = {hash_key[0] ^ UINT64_C(0x736f6d6570736575),
                     hash_key[1] ^ UINT64_C(0x646f72616e646f6d),
                     hash_key[0] ^ UINT64_C(0x6c7967656e657261),
                     hash_key[1] ^ UINT64_C(0x7465646279746573)};
    for (size_t at = 0; at <= length / 8 * 8; at += 8) {
        bool is_last = length - at < 8;
        uint64_t block = is_last ? (uint64_t)length << 56 : 0;
        for (size_t i = 0; i < (is_last ? length - at : 8); i++)
            block |= (uint64_t)(unsigned char)text[at + i] << 8 * i;
        v[3] ^= block;
        mix(v, 2);
        v[0] ^= block;
    }
    v[2] ^= 0xff;
    mix(v, 4);
    return v[0] ^ v[1] ^ v[2] ^ v[3];
}

/* No entry has the key 0. */
static uint64_t key_of(const char *text, size_t length) {
    uint64_t key = sip_hash(text, length) & hash_mask;
    return key ? key : 1;
}

/* ---- reader and writer look a word up in the chain that an entry leads to */

static struct word *find(const uint64_t *entry, const char *text, size_t length) {
    struct word *word = entry[KEY] ? (struct word *)(uintptr_t)entry[PLACE] : 0;
    if (word) RCU_SANITIZER_ACQUIRE(word);
    while (word && (word->length != length || memcmp(word->text, text, length) != 0))
        word = word->next;
    return word;
}

/* Looks up the word that came last, over and over: from its put on it is there. */
static void *look_up(void *none) {
    rcu_seat_t *seat = &seats[READER];
    uint64_t entry[WORDS], seen;
    while (!atomic_load(&over)) {
        struct word *word = atomic_load(&latest);
        must("enter", rcu_seat_enter(seat));
        if (word) {
            must("get", rcu_map_get(seat, key_of(word->text, word->length), entry, WORDS));
            if (find(entry, word->text, word->length) != word) lost++;
        }
        must("exit", rcu_seat_exit(seat));
        must("quiesce", rcu_seat_quiesce(seat, &seen));
    }
    must("idle", rcu_seat_idle(seat));
    return none;
}

/* Counts a word of the text. One that is new becomes the first of its chain. */
static struct word *count(const char *text, size_t length) {
    uint64_t entry[WORDS], old[WORDS], key = key_of(text, length);
    must("find", rcu_map_find(&rcu, key, entry, WORDS));
    struct word *word = find(entry, text, length);
    if (!word) {
        word = malloc(sizeof *word);
        if (!word) abort();
        *word = (struct word){.text = text, .length = length};
        if (entry[KEY]) word->next = (struct word *)(uintptr_t)entry[PLACE];
        entry[KEY] = key;
        entry[PLACE] = (uintptr_t)word;
        RCU_SANITIZER_RELEASE(word);
        uint32_t fault;
        /* (an entry that was replaced keeps its room until a grace period is over) */
        while ((fault = rcu_map_put(&rcu, entry, WORDS, old, WORDS)) == RCU_MAP_FULL) {
            must("wait", rcu_map_wait(&rcu));
            sched_yield();
        }
        must("put", fault);
        atomic_store(&latest, word);
    }
    atomic_fetch_add_explicit(&word->count, 1, memory_order_relaxed);
    return word;
}

/* Counts all words. Returns the one that is there most often. */
static struct word *count_all(const char *text) {
    struct word *most = 0;
    size_t length;
    for (const char *at = next_word(text, &length); length; at = next_word(at + length, &length)) {
        struct word *word = count(at, length);
        if (!most || word->count > most->count) most = word;
    }
    return most;
}

/* Frees all words. Returns how many there were. No reader is left, so none is waited for. */
static uint64_t free_all(uint64_t *shared) {
    uint64_t entry[WORDS] = {0}, freed = 0;
    must("pin", rcu_seat_pin(&seats[WRITER]));
    for (;;) {
        must("next", rcu_map_next(&seats[WRITER], entry[KEY], entry, WORDS));
        if (entry[KEY] == 0) break;
        struct word *word = (struct word *)(uintptr_t)entry[PLACE], *next;
        *shared += word->next != 0;
        for (; word; word = next, freed++) {
            next = word->next;
            free(word);
        }
    }
    must("unpin", rcu_seat_unpin(&seats[WRITER]));
    return freed;
}

int main(int argc, char **argv) {
    bool has_file = argc > 1;
    if (!has_file) hash_mask = 0xfff;
    else if (getentropy(hash_key, sizeof hash_key)) stop("getentropy");
    char *text = has_file ? read_file(argv[1]) : make_text();
    uint64_t words = words_in(text), shared = 0;
    rcu_map_sizes_t sizes = {.buckets = words / 2 + 1, .entries = words + 256, .seed = hash_key[0]};
    must("open", rcu_open_map(CPUS, UINT64_C(1) << 62, &sizes, &rcu));
    for (uint32_t cpu = 0; cpu < CPUS; cpu++)
        must("seat", rcu_seat_open(&rcu, cpu, &seats[cpu]));
    must("arrive", rcu_arrive(&rcu, &seats[READER]));
    must("idle", rcu_seat_idle(&seats[WRITER]));
    pthread_t reader;
    if (pthread_create(&reader, 0, look_up, 0)) abort();
    struct word *most = count_all(text);
    atomic_store(&over, true);
    pthread_join(reader, 0);
    if (most) printf("%.*s: %" PRIuFAST64 "\n", (int)most->length, most->text, most->count);
    uint64_t different = free_all(&shared);
    printf("%" PRIu64 " words, %" PRIu64 " different; %" PRIu64 " hashes of several words\n", words,
           different, shared);
    if (lost) printf("%" PRIu64 " lookups found no word\n", lost);
    for (uint32_t cpu = 0; cpu < CPUS; cpu++) rcu_seat_close(&seats[cpu]);
    rcu_close(&rcu);
    free(text);
    return 0;
}
