/* Tears what was not synced, in the program that this is loaded into (LD_PRELOAD): a write at a place of a file puts
   some of its bytes there at once, and the rest as the file is synced. So a program that is killed between the two
   leaves of such a write some bytes old and some new, as a machine may that loses its power. What it needs of the C
   library of Linux on x86-64 is declared here, so that a compiler without header files makes it, as the kit's. */
typedef __SIZE_TYPE__ size_t;
typedef __PTRDIFF_TYPE__ ssize_t;

extern void *malloc(size_t n);
extern void free(void *p);
extern void *memcpy(void *to, const void *from, size_t n);
extern void *dlsym(void *handle, const char *name);
extern long syscall(long number, ...);

enum { SYS_PWRITE = 18, SYS_NANOSLEEP = 35, SYS_GETRANDOM = 318 };
enum { LONGEST = 4000000 }; /* nanoseconds of a sync, so that who kills comes between the two often */
#define NEXT ((void *)-1L)

/* A write of which some bytes are not there yet. */
struct late {
    int file;
    size_t n;
    long at;
    char *bytes;
    struct late *next;
};

static struct late *first;
static struct late **last = &first;
static int busy;

static void enter(void) {
    while (__atomic_exchange_n(&busy, 1, __ATOMIC_ACQUIRE)) {
    }
}

static void leave(void) { __atomic_store_n(&busy, 0, __ATOMIC_RELEASE); }

static unsigned long drawn(unsigned long below) {
    unsigned long number = 0;
    syscall(SYS_GETRANDOM, &number, sizeof number, 0L);
    return number % below;
}

/* Writes some pieces of the bytes, none or all of them among others. */
static void write_some(int file, const char *bytes, size_t n, long at) {
    unsigned long part = drawn(4), longest = n / 8 + 16;
    for (size_t from = 0; from < n;) {
        size_t piece = 1 + drawn(longest);
        if (piece > n - from) piece = n - from;
        if (drawn(4) < part) syscall(SYS_PWRITE, (long)file, bytes + from, piece, at + (long)from);
        from += piece;
    }
}

ssize_t pwrite(int file, const void *bytes, size_t n, long at) {
    struct late *one = malloc(sizeof *one);
    char *copy = malloc(n ? n : 1);
    if (!one || !copy) return syscall(SYS_PWRITE, (long)file, bytes, n, at);
    memcpy(copy, bytes, n);
    *one = (struct late){file, n, at, copy, 0};
    enter();
    write_some(file, copy, n, at);
    *last = one;
    last = &one->next;
    leave();
    return (ssize_t)n;
}

/* Waits, and writes what is late of every file, in its order. Whether all of it went. */
static int settle(void) {
    long pause[2] = {0, (long)drawn(LONGEST)};
    syscall(SYS_NANOSLEEP, pause, 0L);
    int all = 1;
    enter();
    while (first) {
        struct late *one = first;
        first = one->next;
        if (!first) last = &first;
        if (syscall(SYS_PWRITE, (long)one->file, one->bytes, one->n, one->at) != (long)one->n) all = 0;
        free(one->bytes);
        free(one);
    }
    leave();
    return all;
}

int fdatasync(int file) {
    static int (*next)(int);
    if (!next) next = (int (*)(int))dlsym(NEXT, "fdatasync");
    return settle() ? next(file) : -1;
}

int fsync(int file) {
    static int (*next)(int);
    if (!next) next = (int (*)(int))dlsym(NEXT, "fsync");
    return settle() ? next(file) : -1;
}
