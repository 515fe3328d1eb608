/* Stands before the C library, and refuses what the environment says.
   Growths of memory, with ENOMEM: the one whose number, from 1, is REFUSED_GROWTH; where REFUSED_ON is set too, each later one as well.
   The growths of all threads are counted together, in one atomic count.
   A read, a write or an fsync, with EIO: of the calls that REFUSED_NAME names, that whose number, from 1, is REFUSED_CALL. Calls on
   standard error are not counted. When the process ends, the file that REFUSED_LEFT names gets a byte for each thread that is left.
   Where something is refused, the file that REFUSED_MARK names is made; it has what a call was to read, to write or to keep.
   It is built by the toolchain's clang alone, so it declares what it uses of the C library itself. */
typedef unsigned long size;

struct pause {
    long seconds, nanoseconds;
};

extern void *dlsym(void *, const char *);
extern char *getenv(const char *);
extern unsigned long strtoul(const char *, char **, int);
extern int strcmp(const char *, const char *);
extern char *strstr(const char *, const char *);
extern int creat(const char *, unsigned);
extern int open(const char *, int, ...);
extern int close(int);
extern int snprintf(char *, size, const char *, ...);
extern long readlink(const char *, char *, size);
extern long syscall(long, ...);
extern int nanosleep(const struct pause *, struct pause *);
extern int *__errno_location(void);

#define NEXT ((void *)-1L)
#define FAILED 5
#define NO_MEMORY 12
#define STANDARD_ERROR 2
#define END_OF_ALL 231

/* A function of the C library that takes memory, and what it returns where that is refused. */
#define GROWTH(kind, name, parameters, arguments, refused) \
    static kind(*next_##name) parameters; \
    kind name parameters { \
        look_up(); \
        return next_##name == 0 || is_growth_refused() ? refused : next_##name arguments; \
    }
#define LOOK_UP(name) next_##name = (__typeof__(next_##name))dlsym(NEXT, #name)

static unsigned long growths, calls;
static long (*next_read)(int, void *, size);
static long (*next_write)(int, const void *, size);
static int (*next_fsync)(int);
static void look_up(void);

/* Counts one more, and whether it is the one whose number a variable has, or one after it if REFUSED_ON is set. */
static int is_its_turn(unsigned long *count, const char *name) {
    const char *number = getenv(name);
    if (number == 0) {
        return 0;
    }
    unsigned long first = strtoul(number, 0, 10), now = __atomic_add_fetch(count, 1, __ATOMIC_SEQ_CST);
    return now == first || (now > first && getenv("REFUSED_ON") != 0);
}

static int is_growth_refused(void) {
    if (!is_its_turn(&growths, "REFUSED_GROWTH")) {
        return 0;
    }
    const char *mark = getenv("REFUSED_MARK");
    if (mark != 0) {
        close(creat(mark, 0600));
    }
    *__errno_location() = NO_MEMORY;
    return 1;
}

GROWTH(void *, malloc, (size bytes), (bytes), 0)
GROWTH(void *, realloc, (void *old, size bytes), (old, bytes), 0)
GROWTH(void *, calloc, (size count, size bytes), (count, bytes), 0)
GROWTH(int, posix_memalign, (void **to, size alignment, size bytes), (to, alignment, bytes), NO_MEMORY)
GROWTH(void *, aligned_alloc, (size alignment, size bytes), (alignment, bytes), 0)

/* All are looked up at once, at the latest before main begins and so before there is a second thread. The lookup itself
   may ask calloc for memory, and does without it. */
__attribute__((constructor)) static void look_up(void) {
    static int is_looked_up;
    if (is_looked_up) {
        return;
    }
    is_looked_up = 1;
    LOOK_UP(malloc), LOOK_UP(realloc), LOOK_UP(calloc), LOOK_UP(posix_memalign), LOOK_UP(aligned_alloc);
    LOOK_UP(read), LOOK_UP(write), LOOK_UP(fsync);
}

static int is_call_refused(const char *name, int file) {
    const char *refused = getenv("REFUSED_NAME");
    if (file == STANDARD_ERROR || refused == 0 || strcmp(name, refused) != 0 || !is_its_turn(&calls, "REFUSED_CALL")) {
        return 0;
    }
    char link[64], place[4096];
    snprintf(link, sizeof link, "/proc/self/fd/%d", file);
    long length = readlink(link, place, sizeof place);
    int made = creat(getenv("REFUSED_MARK"), 0600);
    next_write(made, place, length < 0 ? 0 : length);
    close(made);
    *__errno_location() = FAILED;
    return 1;
}

long read(int file, void *to, size bytes) {
    return is_call_refused("read", file) ? -1 : next_read(file, to, bytes);
}

long write(int file, const void *from, size bytes) {
    return is_call_refused("write", file) ? -1 : next_write(file, from, bytes);
}

int fsync(int file) {
    return is_call_refused("fsync", file) ? -1 : next_fsync(file);
}

/* A thread that is joined may stand there for a moment yet. */
static unsigned long threads_left(void) {
    struct pause moment = {0, 1000000};
    unsigned long left = 0;
    for (int looks = 0; looks < 1000; looks++) {
        char text[4096] = {0};
        int file = open("/proc/self/status", 0);
        next_read(file, text, sizeof text - 1);
        close(file);
        const char *line = strstr(text, "\nThreads:");
        left = line == 0 ? 0 : strtoul(line + 9, 0, 10) - 1;
        if (left == 0) {
            return 0;
        }
        nanosleep(&moment, 0);
    }
    return left;
}

__attribute__((destructor)) static void tell_left(void) {
    const char *name = getenv("REFUSED_LEFT");
    if (name == 0) {
        return;
    }
    int made = creat(name, 0600);
    for (unsigned long left = threads_left(); left > 0; left--) {
        next_write(made, "t", 1);
    }
    close(made);
}

void _exit(int status) {
    tell_left();
    syscall(END_OF_ALL, status);
    __builtin_unreachable();
}
