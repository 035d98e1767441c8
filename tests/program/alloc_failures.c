// Loaded into a program, refuses it one growth: the call of malloc or realloc whose number, from 1 on, stands in the
// environment. It tells so by a byte to the descriptor that stands there too. Where another descriptor stands there, it
// tells it at the end how many calls there were, for how many bytes in all, how often a thread left its processor to
// others, and how many reads and writes there were. It needs no header and no library but the one that every program
// here stands on, so the toolchain's own compiler makes it.
typedef unsigned long count_t;

extern char *getenv(const char *name);
extern int atoi(const char *text);
extern int dprintf(int descriptor, const char *format, ...);
extern long __read(int descriptor, void *bytes, count_t count);
extern long __write(int descriptor, const void *bytes, count_t count);
extern void *__libc_malloc(count_t size);
extern void *__libc_realloc(void *old, count_t size);
extern int __sched_yield(void);
extern void _Exit(int status);

// A program may start threads, and each of them may grow.
static int calls;
static count_t bytes;
static count_t yields;
static count_t reads;
static count_t writes;

static int named(const char *name) {
    const char *number = getenv(name);
    return number ? atoi(number) : 0;
}

static int is_refused(count_t size) {
    __atomic_add_fetch(&bytes, size, __ATOMIC_SEQ_CST);
    if (__atomic_add_fetch(&calls, 1, __ATOMIC_SEQ_CST) != named("REFUSED_GROWTH")) {
        return 0;
    }
    return __write(named("TOLD_TO"), "!", 1) == 1;
}

void *malloc(count_t size) { return is_refused(size) ? 0 : __libc_malloc(size); }

void *realloc(void *old, count_t size) { return is_refused(size) ? 0 : __libc_realloc(old, size); }

int sched_yield(void) {
    __atomic_add_fetch(&yields, 1, __ATOMIC_RELAXED);
    return __sched_yield();
}

long read(int descriptor, void *into, count_t count) {
    __atomic_add_fetch(&reads, 1, __ATOMIC_RELAXED);
    return __read(descriptor, into, count);
}

long write(int descriptor, const void *from, count_t count) {
    __atomic_add_fetch(&writes, 1, __ATOMIC_RELAXED);
    return __write(descriptor, from, count);
}

static void tell(void) {
    int descriptor = named("COUNTED_TO");
    if (descriptor) {
        // What it takes itself is not counted: the numbers are taken before.
        dprintf(descriptor, "%d %lu %lu %lu %lu\n", calls, bytes, yields, reads, writes);
    }
}

// Programs that may start threads end by this call, which runs nothing that was left for the end.
void _exit(int status) {
    tell();
    _Exit(status);
}

// The others return from main.
__attribute__((destructor)) static void at_the_end(void) { tell(); }
