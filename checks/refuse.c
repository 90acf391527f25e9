/* Has the Nth call of one kind fail, in the program that this is loaded into (LD_PRELOAD): REFUSE_KIND names the kind,
   REFUSE_AT is N, and a byte is written to the file REFUSE_MARK where a call was refused. What it needs of the C
   library of Linux on x86-64 is declared here, so that a compiler without header files makes it, as the kit's. */
typedef __SIZE_TYPE__ size_t;
typedef __PTRDIFF_TYPE__ ssize_t;

extern char *getenv(const char *name);
extern long atol(const char *text);
extern int strcmp(const char *one, const char *other);
extern void *dlsym(void *handle, const char *name);
extern long syscall(long number, ...);
extern int *__errno_location(void);

enum { SYS_WRITE = 1, SYS_OPEN = 2, SYS_CLOSE = 3, WRITE_ONLY_CREATE = 1 | 64 };
enum { EINTR = 4, EIO = 5, EAGAIN = 11, ENOMEM = 12, EMFILE = 24, EPIPE = 32 };
enum { EADDRINUSE = 98, ECONNRESET = 104, ECONNREFUSED = 111 };
#define NEXT ((void *)-1L)

static const char *kind = "";
static long at;
static long calls;

__attribute__((constructor)) static void begin(void) {
    if (getenv("REFUSE_KIND") && getenv("REFUSE_AT")) {
        kind = getenv("REFUSE_KIND");
        at = atol(getenv("REFUSE_AT"));
    }
}

static int is_refused(const char *of) {
    if (strcmp(kind, of) || __atomic_add_fetch(&calls, 1, __ATOMIC_SEQ_CST) != at) return 0;
    int mark = (int)syscall(SYS_OPEN, getenv("REFUSE_MARK"), WRITE_ONLY_CREATE, 0600);
    syscall(SYS_WRITE, mark, "1", 1L);
    syscall(SYS_CLOSE, mark);
    return 1;
}

#define CALL(answer, name, of, parameters, arguments, failed, error)            \
    answer name parameters {                                                    \
        static answer(*next) parameters;                                        \
        if (!next) next = (answer(*) parameters)dlsym(NEXT, #name);             \
        if (is_refused(of)) {                                                   \
            *__errno_location() = error;                                        \
            return failed;                                                      \
        }                                                                       \
        return next arguments;                                                  \
    }

CALL(void *, malloc, "memory", (size_t n), (n), (void *)0, ENOMEM)
CALL(void *, realloc, "memory", (void *p, size_t n), (p, n), (void *)0, ENOMEM)
CALL(int, pthread_create, "thread", (unsigned long *t, const void *a, void *(*f)(void *), void *x), (t, a, f, x),
     EAGAIN, EAGAIN)
CALL(int, socket, "socket", (int domain, int type, int protocol), (domain, type, protocol), -1, EMFILE)
CALL(int, bind, "listen", (int s, const void *a, unsigned n), (s, a, n), -1, EADDRINUSE)
CALL(int, listen, "listen", (int s, int n), (s, n), -1, EADDRINUSE)
CALL(int, accept4, "accept", (int s, void *a, unsigned *n, int flags), (s, a, n, flags), -1, EMFILE)
CALL(int, epoll_create1, "poll", (int flags), (flags), -1, EMFILE)
CALL(int, epoll_ctl, "poll", (int e, int what, int f, void *x), (e, what, f, x), -1, ENOMEM)
CALL(int, epoll_wait, "poll", (int e, void *x, int n, int millis), (e, x, n, millis), -1, EINTR)
CALL(int, connect, "connect", (int s, const void *a, unsigned n), (s, a, n), -1, ECONNREFUSED)
CALL(int, setsockopt, "option", (int s, int level, int name, const void *v, unsigned n), (s, level, name, v, n), -1,
     ENOMEM)
CALL(ssize_t, read, "read", (int f, void *p, size_t n), (f, p, n), -1, EIO)
CALL(ssize_t, recv, "read", (int f, void *p, size_t n, int flags), (f, p, n, flags), -1, ECONNRESET)
CALL(ssize_t, write, "write", (int f, const void *p, size_t n), (f, p, n), -1, EIO)
CALL(ssize_t, pwrite, "keep", (int f, const void *p, size_t n, long at), (f, p, n, at), -1, EIO)
CALL(int, fsync, "sync", (int f), (f), -1, EIO)
CALL(int, fdatasync, "sync", (int f), (f), -1, EIO)
CALL(ssize_t, send, "write", (int f, const void *p, size_t n, int flags), (f, p, n, flags), -1, EPIPE)
