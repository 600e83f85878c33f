// Loaded before the C library into a test program: counts the requests for memory of each call, and refuses one of them.
//
// The program makes a request of BEGIN bytes before each call, one of END bytes after it, and one of IDLE bytes once all that
// the call was given and left is dropped. Then a line of four numbers goes to standard error: the requests between the first
// two (up to the third, if there is no second), their bytes, how many blocks are held, and how many bytes more were held after
// the call than before it (0, if there is no second). With REFUSE=N in the environment the Nth request of each call is refused.
// With WHOLE in it the run of a program that makes no such requests is one call, and the numbers follow its end.
//
// Before each block are stored the address that the C library knows it by, and its size.
typedef unsigned long size_t;

enum { BEGIN = 1000003, END = 1000033, IDLE = 1000063, HEAD = 2 * sizeof(size_t) };

void *__libc_malloc(size_t size);
void *__libc_calloc(size_t many, size_t size);
void *__libc_realloc(void *block, size_t size);
void *__libc_memalign(size_t alignment, size_t size);
void __libc_free(void *block);
char *getenv(const char *name);
long atol(const char *text);
int dprintf(int file, const char *format, ...);

static long is_counting, requests, bytes, held, bytes_held, before, more, refused = -1;

// Returns whether a request is refused. Counts it, unless it says that a call begins or ends.
static int refuses(size_t size) {
    if (refused < 0) {
        const char *number = getenv("REFUSE");
        refused = number ? atol(number) : 0;
        is_counting = getenv("WHOLE") != 0;
    }
    if (size == BEGIN) {
        is_counting = 1;
        requests = bytes = more = 0;
        before = bytes_held;
    } else if (size == END) {
        more = is_counting ? bytes_held - before : more;
        is_counting = 0;
    } else if (size == IDLE) {
        dprintf(2, "%ld %ld %ld %ld\n", requests, bytes, held, more);
    } else if (is_counting) {
        requests++;
        bytes += size;
        return requests == refused;
    }
    return 0;
}

__attribute__((destructor)) static void end(void) {
    if (getenv("WHOLE")) {
        dprintf(2, "%ld %ld %ld %ld\n", requests, bytes, held, more);
    }
}

// The block of `size` bytes after the `head` ones that begin at the C library's address.
static void *counted(void *begin, size_t head, size_t size) {
    if (begin == 0) {
        return 0;
    }
    size_t *block = (size_t *)((char *)begin + head);
    block[-2] = head;
    block[-1] = size;
    held++;
    bytes_held += size;
    return block;
}

static void *given_back(void *block) {
    size_t *sizes = block;
    held--;
    bytes_held -= sizes[-1];
    return (char *)block - sizes[-2];
}

void *malloc(size_t size) {
    return refuses(size) ? 0 : counted(__libc_malloc(size + HEAD), HEAD, size);
}

void *calloc(size_t many, size_t size) {
    size_t bytes;
    if (__builtin_mul_overflow(many, size, &bytes) || refuses(bytes)) {
        return 0;
    }
    return counted(__libc_calloc(1, bytes + HEAD), HEAD, bytes);
}

void *aligned_alloc(size_t alignment, size_t size) {
    size_t head = alignment > HEAD ? alignment : HEAD;
    return refuses(size) ? 0 : counted(__libc_memalign(head, size + head), head, size);
}

int posix_memalign(void **block, size_t alignment, size_t size) {
    *block = aligned_alloc(alignment, size);
    return *block == 0 ? 12 : 0;
}

void *realloc(void *block, size_t size) {
    if (block == 0) {
        return malloc(size);
    }
    if (refuses(size)) {
        return 0;
    }
    size_t head = ((size_t *)block)[-2], old = ((size_t *)block)[-1];
    void *begin = given_back(block), *grown = __libc_realloc(begin, size + head);
    return grown ? counted(grown, head, size) : (counted(begin, head, old), (void *)0);
}

void free(void *block) {
    if (block != 0) {
        __libc_free(given_back(block));
    }
}
