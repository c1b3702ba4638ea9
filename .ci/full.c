// Makes the disk full for the program that it is preloaded to, by LD_PRELOAD: after as many writes into files as the variable
// FULL of the environment says, each fails as on a disk without room. What is printed isn't written in this way.
//
// No header is read, so that a compiler alone is enough.

typedef __SIZE_TYPE__ size_t;

enum { NO_ROOM = 28 };

extern int atoi(const char *), *__errno_location(void);
extern char *getenv(const char *);
extern void *dlsym(void *, const char *);

static int left;

__attribute__((constructor)) static void begin(void) {
    const char *text = getenv("FULL");
    left = text ? atoi(text) : 0;
}

long pwrite(int file, const void *bytes, size_t size, long at) {
    long (*next)(int, const void *, size_t, long) = (long (*)(int, const void *, size_t, long)) dlsym((void *) -1, "pwrite");
    if (left-- > 0)
        return next(file, bytes, size, at);
    left = 0;
    *__errno_location() = NO_ROOM;
    return -1;
}
