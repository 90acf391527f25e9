/* Has a program that this is loaded into (LD_PRELOAD) wait 50 milliseconds where it would wait long for what comes over
   a connection: each read timeout of ten seconds or more is set as that. What it needs of the C library of Linux on
   x86-64 is declared here, so that a compiler without header files makes it, as the kit's. */
extern void *dlsym(void *handle, const char *name);

enum { SOL_SOCKET = 1, SO_RCVTIMEO = 20, LONG = 10, SHORT = 50000 };
#define NEXT ((void *)-1L)

struct timeval {
    long seconds;
    long micros;
};

int setsockopt(int socket, int level, int name, const void *value, unsigned length) {
    static int (*next)(int, int, int, const void *, unsigned);
    if (!next) next = (int (*)(int, int, int, const void *, unsigned))dlsym(NEXT, "setsockopt");
    struct timeval soon = {0, SHORT};
    if (level == SOL_SOCKET && name == SO_RCVTIMEO && ((const struct timeval *)value)->seconds >= LONG)
        return next(socket, level, name, &soon, sizeof soon);
    return next(socket, level, name, value, length);
}
