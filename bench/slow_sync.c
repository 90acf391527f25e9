/* Makes each fsync and fdatasync of the program that this is loaded into (LD_PRELOAD) take SLOW_SYNC microseconds more,
   also where they go past the C library, as those of programs in Go do: a second process holds each such call of the
   first so long, as the kernel lets one by seccomp, and lets it go on. What it needs of the C library and of the kernel
   of Linux on x86-64 is declared here, so that a compiler without header files makes it, as the kit's. */
typedef unsigned long u64;
typedef unsigned int u32;
typedef unsigned short u16;
typedef unsigned char u8;

extern char *getenv(const char *name);
extern int unsetenv(const char *name);
extern long atol(const char *text);
extern long syscall(long number, ...);

enum { SYS_READ = 0, SYS_WRITE = 1, SYS_CLOSE = 3, SYS_IOCTL = 16, SYS_CLONE = 56, SYS_EXIT = 231, SYS_PRCTL = 157 };
enum { SYS_CLOCK = 228, SYS_PPOLL = 271, SYS_UNSHARE = 272, SYS_PIPE = 293, SYS_SECCOMP = 317, SYS_CLOSE_RANGE = 436 };
enum { SYS_FSYNC = 74, SYS_FDATASYNC = 75, X86_64 = (int)0xc000003e };
enum { SHARES_FILES = 0x400, SET_SLACK = 29, NO_NEW_PRIVILEGES = 38, WITH_FILTER = 1, NEW_LISTENER = 8 };
enum { LOAD = 0x20, JUMP_IF_EQUAL = 0x15, ANSWER = 6, ALLOW = 0x7fff0000, ASK = 0x7fc00000, GO_ON = 1 };
enum { IN = 1, MOST = 1024, BILLION = 1000000000 };
#define RECEIVE 0xc0502100UL
#define SEND 0xc0182101UL

/* A call that is held, an answer to it, a step of a filter, a filter, and what is waited for. */
struct call { u64 id; u32 process, flags; u64 what[8]; };
struct answer { u64 id; long value; int error; u32 flags; };
struct step { u16 code; u8 yes, no; u32 k; };
struct filter { u16 count; struct step *steps; };
struct waited { int file; short events, came; };

static u64 now(void) {
    long time[2];
    syscall(SYS_CLOCK, 1L, time);
    return (u64)time[0] * BILLION + (u64)time[1];
}

/* Holds each call so many nanoseconds, until no process has the filter any more. */
static void hold_calls(int file, u64 most) {
    static struct { u64 id, due; } held[MOST];
    u64 first = 0, end = 0;
    syscall(SYS_PRCTL, (long)SET_SLACK, 1L, 0L, 0L, 0L);
    for (;;) {
        u64 time = now(), due = first < end ? held[first % MOST].due : 0;
        long left = due > time ? (long)(due - time) : 0, pause[2] = {left / BILLION, left % BILLION};
        struct waited one = {file, IN, 0};
        syscall(SYS_PPOLL, &one, 1L, first < end ? pause : (long *)0, (void *)0, 8L);
        if (one.came & IN && end - first < MOST) {
            struct call call = {0};
            if (syscall(SYS_IOCTL, (long)file, RECEIVE, &call) == 0) {
                held[end % MOST].id = call.id;
                held[end++ % MOST].due = now() + most;
            }
        } else if (one.came & ~IN) {
            return;
        }
        for (time = now(); first < end && held[first % MOST].due <= time; first++) {
            struct answer answer = {held[first % MOST].id, 0, 0, GO_ON};
            syscall(SYS_IOCTL, (long)file, SEND, &answer);
        }
    }
}

/* What the second process does: it takes the filter's file out of those that both have, and leaves the others. */
static void stand_by(int number, int told, u64 most) {
    int file;
    if (syscall(SYS_READ, (long)number, &file, sizeof file) == sizeof file && file >= 0) {
        syscall(SYS_UNSHARE, (long)SHARES_FILES);
        syscall(SYS_WRITE, (long)told, "1", 1L);
        if (file > 0) syscall(SYS_CLOSE_RANGE, 0L, (long)file - 1, 0L);
        syscall(SYS_CLOSE_RANGE, (long)file + 1, (long)~0U, 0L);
        hold_calls(file, most);
    }
    syscall(SYS_EXIT, 0L);
}

__attribute__((constructor)) static void begin(void) {
    if (!getenv("SLOW_SYNC")) return;
    u64 most = (u64)atol(getenv("SLOW_SYNC")) * 1000;
    unsetenv("LD_PRELOAD"); /* what this program starts has the filter already */
    int number[2], told[2];
    if (syscall(SYS_PIPE, number, 0L) || syscall(SYS_PIPE, told, 0L)) syscall(SYS_EXIT, 99L);
    if (syscall(SYS_CLONE, (long)SHARES_FILES, 0L, 0L, 0L, 0L) == 0) stand_by(number[0], told[1], most);
    struct step steps[] = {
        {LOAD, 0, 0, 4}, {JUMP_IF_EQUAL, 0, 3, (u32)X86_64}, {LOAD, 0, 0, 0}, {JUMP_IF_EQUAL, 2, 0, SYS_FSYNC},
        {JUMP_IF_EQUAL, 1, 0, SYS_FDATASYNC}, {ANSWER, 0, 0, ALLOW}, {ANSWER, 0, 0, ASK},
    };
    struct filter filter = {sizeof steps / sizeof *steps, steps};
    syscall(SYS_PRCTL, (long)NO_NEW_PRIVILEGES, 1L, 0L, 0L, 0L);
    int file = (int)syscall(SYS_SECCOMP, (long)WITH_FILTER, (long)NEW_LISTENER, &filter);
    char byte;
    syscall(SYS_WRITE, (long)number[1], &file, sizeof file);
    if (file < 0 || syscall(SYS_READ, (long)told[0], &byte, 1L) != 1) syscall(SYS_EXIT, 99L);
    int files[] = {file, number[0], number[1], told[0], told[1]};
    for (int k = 0; k < 5; k++) syscall(SYS_CLOSE, (long)files[k]);
}
