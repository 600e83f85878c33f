// Linked into the programs of bin/planted: picks the wrong body whose number is the first argument, and tells at the end what a run did.
//
// The hooks belong to the checks of memory that `rt try` links. Bodies 0 and 1 are right: each search asks for 0, and each comparison
// of a lookup for 1, and so is counted.
typedef unsigned long size_t;

int atoi(const char *text);
size_t strlen(const char *text);
int printf(const char *format, ...);

static unsigned picked;
static long asked[2], requests, bytes, held, over;

__attribute__((constructor)) static void pick(int count, char **words) {
    picked = count > 1 ? atoi(words[1]) : 0;
    // The program keeps its own name, whose length differs from run to run.
    bytes -= strlen(words[0]);
}

unsigned char is_planted(unsigned body) {
    if (body < 2) {
        asked[body]++;
        return 0;
    }
    return body == picked;
}

void __sanitizer_malloc_hook(const volatile void *block, size_t size) {
    requests += block != 0;
    bytes += size;
    over += held;
    held += block != 0;
}

void __sanitizer_free_hook(const volatile void *block) {
    held -= block != 0;
}

__attribute__((destructor)) static void tell(void) {
    printf("%ld searches, %ld comparisons, ", asked[0], asked[1]);
    printf("%ld requests of %ld bytes, at which %ld blocks are held, and %ld at the end\n", requests, bytes, over, held);
}
