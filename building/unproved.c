/* Linked into unproved programs alone. One that a launcher began, and that worked for more than a second of processor time, says as its
   last line on standard error that the proved one is faster. All else is as without this. A program of the kit ends by the C library's
   _exit, which this function precedes, or by a return from main, after which destructors run. By then each file is closed, one that was
   opened under the number of a closed stream too, so that no file gets the line.
   The toolchain's clang compiles it, with PROGRAM as the program's name in quotes, so it declares what it uses of the C library itself. */
typedef unsigned long size;

struct duration {
    long seconds, nanoseconds;
};

extern int clock_gettime(int, struct duration *);
extern void *memmem(const void *, size, const void *, size);
extern long readlink(const char *, char *, size);
extern void (*signal(int, void (*)(int)))(int);
extern long syscall(long, ...);
extern long write(int, const void *, size);

#define STANDARD_ERROR 2
#define TIME_OF_PROCESS 2
#define FILE_TOO_LONG 25
#define IGNORED ((void (*)(int))1)
#define END_OF_ALL 231
/* where launch finds an unproved program: an installed one is elsewhere, without a ./build next to it */
#define PLACE "/out/unproved/" PROGRAM
#define LINE PROGRAM ": this program was compiled without proof, and checks each index and sum: the proved one, which ./build makes, is about three times as fast\n"

static int worked_long(void) {
    struct duration worked;
    return clock_gettime(TIME_OF_PROCESS, &worked) == 0 && worked.seconds > 0;
}

static int is_launched(void) {
    char path[4096];
    long length = readlink("/proc/self/exe", path, sizeof path);
    return length > 0 && memmem(path, (size)length, PLACE, sizeof PLACE - 1) != 0;
}

__attribute__((destructor)) static void tell(void) {
    if (worked_long() && is_launched()) {
        /* the kit's main has SIGPIPE ignored, and this one not */
        signal(FILE_TOO_LONG, IGNORED);
        write(STANDARD_ERROR, LINE, sizeof LINE - 1);
    }
}

void _exit(int status) {
    tell();
    syscall(END_OF_ALL, status);
    __builtin_unreachable();
}
