/* Writes down what a program does with files, in the program that this is loaded into (LD_PRELOAD): a line in the file
   STEPS for each that it opens, gives away, syncs or removes, as `sync /a/folder`. Where STEPS_END is N, the program is
   ended by SIGKILL before the Nth of these calls. What it needs of the C library of Linux on x86-64 is declared here,
   so that a compiler without header files makes it, as the kit's. */
typedef __SIZE_TYPE__ size_t;

extern char *getenv(const char *name);
extern long atol(const char *text);
extern size_t strlen(const char *text);
extern void *dlsym(void *handle, const char *name);
extern long syscall(long number, ...);

enum { SYS_WRITE = 1, SYS_OPEN = 2, SYS_CLOSE = 3, SYS_GETPID = 39, SYS_KILL = 62, SYS_READLINK = 89, SIGKILL = 9 };
enum { APPEND_CREATE = 1 | 64 | 1024, LONGEST = 4096 };
#define NEXT ((void *)-1L)

static long calls;

/* A line of a call, unless the program ends before it. */
static void step(const char *call, const char *path) {
    const char *end = getenv("STEPS_END");
    calls += 1;
    if (end && calls == atol(end)) syscall(SYS_KILL, syscall(SYS_GETPID), (long)SIGKILL);
    long log = syscall(SYS_OPEN, getenv("STEPS"), (long)APPEND_CREATE, 0600L);
    syscall(SYS_WRITE, log, call, strlen(call));
    syscall(SYS_WRITE, log, path, strlen(path));
    syscall(SYS_WRITE, log, "\n", 1L);
    syscall(SYS_CLOSE, log);
}

/* The same of an open file, by the path that it has. */
static void step_of(const char *call, int file) {
    char link[32] = "/proc/self/fd/", path[LONGEST + 1];
    size_t end = strlen(link), digits = 1;
    for (int rest = file; rest >= 10; rest /= 10) digits += 1;
    for (int rest = file; digits > 0; rest /= 10) link[end + --digits] = (char)('0' + rest % 10);
    long length = syscall(SYS_READLINK, link, path, (long)LONGEST);
    path[length > 0 ? length : 0] = 0;
    step(call, path);
}

#define CALL(name, told, parameters, arguments)                     \
    int name parameters {                                           \
        static int(*next) parameters;                               \
        if (!next) next = (int(*) parameters)dlsym(NEXT, #name);    \
        told;                                                       \
        return next arguments;                                      \
    }

CALL(open, step("open ", path), (const char *path, int flags, unsigned mode), (path, flags, mode))
CALL(unlink, step("remove ", path), (const char *path), (path))
CALL(fchown, step_of("owner ", file), (int file, unsigned user, unsigned group), (file, user, group))
CALL(fchmod, step_of("mode ", file), (int file, unsigned mode), (file, mode))
CALL(fsync, step_of("sync ", file), (int file), (file))
CALL(fdatasync, step_of("sync ", file), (int file), (file))
