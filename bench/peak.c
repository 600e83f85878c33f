// Loaded before the C library into a program of the benchmark, whose clock then shows bytes in place of time: between two
// readings it advances by a microsecond for each byte that was held at the peak beyond those held at the first reading. So a
// measure with a limited time ends after its first round.
typedef unsigned long size_t;

void *__libc_malloc(size_t size);
void *__libc_calloc(size_t many, size_t size);
void *__libc_realloc(void *block, size_t size);
void __libc_free(void *block);
size_t malloc_usable_size(void *block);

// The bytes that are held now, that were held at the last reading and at the peak since then, and what the clock shows. The
// programs have one thread.
static long held, last, peak, told;

// Counts a block that is held from now on, unless it is null.
static void *counted(void *block) {
    held += malloc_usable_size(block);
    peak = held > peak ? held : peak;
    return block;
}

void *malloc(size_t size) { return counted(__libc_malloc(size)); }

void *calloc(size_t many, size_t size) { return counted(__libc_calloc(many, size)); }

// A block that grows counts as one, although the C library may hold both the old and the new one for a while.
void *realloc(void *block, size_t size) {
    long before = malloc_usable_size(block);
    void *grown = __libc_realloc(block, size);
    if (grown == 0 && size != 0) {
        return 0;
    }
    held -= before;
    return counted(grown);
}

void free(void *block) {
    held -= malloc_usable_size(block);
    __libc_free(block);
}

// The time is written as seconds and nanoseconds.
int clock_gettime(int clock, long time[2]) {
    (void)clock;
    told += peak - last;
    last = peak = held;
    time[0] = told / 1000000;
    time[1] = told % 1000000 * 1000;
    return 0;
}
