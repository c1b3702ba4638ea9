// Refuses one request for memory to the program that it is preloaded to, by LD_PRELOAD: the one whose number, from 1, the
// variable REFUSE of the environment has. It then writes the line `refused` to standard error.
//
// A request is a call of malloc, calloc, realloc, aligned_alloc or posix_memalign from the program's own file. A program in
// Rattle takes all its memory by malloc and realloc, which that file calls; the other three are here so that none goes
// uncounted. What the loader and the C library need for themselves is asked from other files, and is always given.
//
// No header is read, so that a compiler alone is enough.

typedef __SIZE_TYPE__ size_t;

struct place { const char *file; void *start; const char *name; void *address; };

enum { STANDARD_ERROR = 2, PROGRAM_ENTRY = 9, NO_MEMORY = 12 };

extern void *__libc_malloc(size_t), *__libc_calloc(size_t, size_t), *__libc_realloc(void *, size_t);
extern void *__libc_memalign(size_t, size_t);
extern int atoi(const char *), dladdr(const void *, struct place *), *__errno_location(void);
extern char *getenv(const char *);
extern unsigned long getauxval(unsigned long);
extern long write(int, const void *, size_t);

static int number, requests;

__attribute__((constructor)) static void begin(void) {
    const char *text = getenv("REFUSE");
    number = text ? atoi(text) : 0;
}

// Whether the call that returns to this address is the request to be refused.
static int refused(const void *caller) {
    struct place program, place;
    if (!dladdr((void *) getauxval(PROGRAM_ENTRY), &program) || !dladdr(caller, &place))
        return 0;
    if (place.start != program.start || ++requests != number)
        return 0;
    write(STANDARD_ERROR, "refused\n", 8);
    *__errno_location() = NO_MEMORY;
    return 1;
}

#define REFUSED refused(__builtin_return_address(0))

void *malloc(size_t size) { return REFUSED ? 0 : __libc_malloc(size); }

void *calloc(size_t count, size_t size) { return REFUSED ? 0 : __libc_calloc(count, size); }

void *realloc(void *block, size_t size) { return REFUSED ? 0 : __libc_realloc(block, size); }

void *aligned_alloc(size_t align, size_t size) { return REFUSED ? 0 : __libc_memalign(align, size); }

int posix_memalign(void **block, size_t align, size_t size) {
    void *made = REFUSED ? 0 : __libc_memalign(align, size);
    if (!made)
        return NO_MEMORY;
    *block = made;
    return 0;
}
