/* Refuses memory. A program that begins with this library (LD_PRELOAD) is refused its requests FIRST to LAST, counted
   from 1, and the file REQUESTS, which has the size of two longs, holds how many there were, and how many bytes it held
   at most. No header is read, so that the toolchain's own compiler can build it. */

extern char *getenv(const char *name);
extern long atol(const char *digits);
extern int open(const char *path, int flags, ...);
extern void *mmap(void *address, unsigned long size, int protection, int flags, int file, long offset);
extern void _exit(int status);
extern void *__libc_malloc(unsigned long size);
extern void *__libc_realloc(void *block, unsigned long size);
extern void *__libc_calloc(unsigned long count, unsigned long size);
extern void *__libc_memalign(unsigned long alignment, unsigned long size);
extern void __libc_free(void *block);
extern unsigned long malloc_usable_size(void *block);

/* How many requests there were, and how many bytes were held at most. */
static long unseen[2], *counted = unseen, first, last, held;

__attribute__((constructor)) static void begin(void) {
    const char *path = getenv("REQUESTS");
    int file = path ? open(path, 2) : -1; /* O_RDWR */
    void *shared = mmap(0, sizeof unseen, 3, 1, file, 0); /* PROT_READ | PROT_WRITE, MAP_SHARED */
    if (shared == (void *)-1)
        _exit(99);
    counted = shared;
    counted[0] = counted[1] = held = 0;
    first = atol(getenv("FIRST"));
    last = atol(getenv("LAST"));
}

static int is_refused(void) {
    long request = ++counted[0];
    return first <= request && request <= last;
}

/* Counts what a block holds, if there is one. */
static void *hold(void *block) {
    held += block ? (long)malloc_usable_size(block) : 0;
    if (held > counted[1])
        counted[1] = held;
    return block;
}

static void release(void *block) { held -= block ? (long)malloc_usable_size(block) : 0; }

void *malloc(unsigned long size) { return is_refused() ? 0 : hold(__libc_malloc(size)); }

void *realloc(void *block, unsigned long size) {
    if (is_refused())
        return 0;
    long before = block ? (long)malloc_usable_size(block) : 0;
    void *moved = __libc_realloc(block, size);
    held -= moved ? before : 0;
    return hold(moved);
}

void free(void *block) {
    release(block);
    __libc_free(block);
}

void *calloc(unsigned long count, unsigned long size) { return is_refused() ? 0 : hold(__libc_calloc(count, size)); }

void *aligned_alloc(unsigned long alignment, unsigned long size) {
    return is_refused() ? 0 : hold(__libc_memalign(alignment, size));
}

int posix_memalign(void **block, unsigned long alignment, unsigned long size) {
    void *found = aligned_alloc(alignment, size);
    if (!found)
        return 12; /* ENOMEM */
    *block = found;
    return 0;
}
