/* Has calls of a device go wrong, in the program that this is loaded into (LD_PRELOAD). MISHAP_OF is `read` or `write`,
   MISHAP_FIRST the number of the first of them, from 0 on, and MISHAP_CALLS how many in a row: each of these fails
   (MISHAP is `fail`), is interrupted (`interrupt`), or takes nothing (`nothing`). Where MISHAP_SHORT has the word
   `read` or `write`, each of these calls moves a byte at most. The file MISHAP_MARK is made where a call went wrong.
   What it needs of the C library of Linux on x86-64 is declared here, so that a compiler without header files makes
   it, as the kit's. */
typedef __SIZE_TYPE__ size_t;
typedef __PTRDIFF_TYPE__ ssize_t;

extern char *getenv(const char *name);
extern long atol(const char *text);
extern int strcmp(const char *one, const char *other);
extern char *strstr(const char *text, const char *word);
extern void *dlsym(void *handle, const char *name);
extern long syscall(long number, ...);
extern int *__errno_location(void);

enum { SYS_OPEN = 2, SYS_CLOSE = 3, WRITE_ONLY_CREATE = 1 | 64, EINTR = 4, EIO = 5 };
#define NEXT ((void *)-1L)

static const char *of = "", *how = "", *bytewise = "", *mark = "";
static long first, calls, made;

__attribute__((constructor)) static void begin(void) {
    if (!getenv("MISHAP_OF")) return;
    of = getenv("MISHAP_OF");
    how = getenv("MISHAP");
    mark = getenv("MISHAP_MARK");
    bytewise = getenv("MISHAP_SHORT");
    first = atol(getenv("MISHAP_FIRST"));
    calls = atol(getenv("MISHAP_CALLS"));
}

static int is_wrong(const char *call) {
    long number = strcmp(of, call) ? -1 : made++;
    if (number < first || number >= first + calls) return 0;
    syscall(SYS_CLOSE, syscall(SYS_OPEN, mark, (long)WRITE_ONLY_CREATE, 0600L));
    return 1;
}

static ssize_t wrong(void) {
    if (!strcmp(how, "nothing")) return 0;
    *__errno_location() = strcmp(how, "interrupt") ? EIO : EINTR;
    return -1;
}

static size_t shortened(const char *call, size_t count) { return strstr(bytewise, call) && count > 1 ? 1 : count; }

ssize_t read(int file, void *bytes, size_t count) {
    static ssize_t (*next)(int, void *, size_t);
    if (!next) next = (ssize_t(*)(int, void *, size_t))dlsym(NEXT, "read");
    return is_wrong("read") ? wrong() : next(file, bytes, shortened("read", count));
}

ssize_t write(int file, const void *bytes, size_t count) {
    static ssize_t (*next)(int, const void *, size_t);
    if (!next) next = (ssize_t(*)(int, const void *, size_t))dlsym(NEXT, "write");
    return is_wrong("write") ? wrong() : next(file, bytes, shortened("write", count));
}
