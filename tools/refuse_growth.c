// Refuses one growth of memory of the program that it is loaded into, before the C library: the
// one of the place that REFUSED_GROWTH names, counted from 1; none where that is 0. Into the pipe
// whose number REFUSED_PIPE names it writes 'L' once it is loaded, and 'R' as it refuses.
// (It names no header, so that the compiler that links programs is enough.)
typedef unsigned long size_t;

extern char *getenv(const char *);
extern int *__errno_location(void);
extern long write(int, const void *, size_t);
extern void *__libc_malloc(size_t);
extern void *__libc_calloc(size_t, size_t);
extern void *__libc_realloc(void *, size_t);
extern void *__libc_memalign(size_t, size_t);

static const int OUT_OF_MEMORY = 12;
static long left;
static int told;

static long number_of(const char *name) {
    long number = 0;
    const char *text = getenv(name);
    while (text && *text) number = 10 * number + (*text++ - '0');
    return number;
}

__attribute__((constructor)) static void begin(void) {
    told = number_of("REFUSED_PIPE");
    write(told, "L", 1);
    __atomic_store_n(&left, number_of("REFUSED_GROWTH"), __ATOMIC_SEQ_CST);
}

// Below 0 it counts on, and refuses none.
static int is_refused(void) {
    if (__atomic_fetch_sub(&left, 1, __ATOMIC_SEQ_CST) != 1) return 0;
    write(told, "R", 1);
    *__errno_location() = OUT_OF_MEMORY;
    return 1;
}

void *malloc(size_t size) { return is_refused() ? 0 : __libc_malloc(size); }

void *calloc(size_t count, size_t size) { return is_refused() ? 0 : __libc_calloc(count, size); }

void *realloc(void *old, size_t size) { return is_refused() ? 0 : __libc_realloc(old, size); }

void *memalign(size_t align, size_t size) {
    return is_refused() ? 0 : __libc_memalign(align, size);
}

void *aligned_alloc(size_t align, size_t size) { return memalign(align, size); }

int posix_memalign(void **made, size_t align, size_t size) {
    void *given = memalign(align, size);
    if (given) *made = given;
    return given ? 0 : OUT_OF_MEMORY;
}
