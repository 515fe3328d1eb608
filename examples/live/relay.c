// Puts a translator between two TUN devices; the text of --help, below, says how.
#define _GNU_SOURCE
#include <ctype.h>
#include <dirent.h>
#include <errno.h>
#include <fcntl.h>
#include <inttypes.h>
#include <linux/if_tun.h>
#include <net/if.h>
#include <poll.h>
#include <sched.h>
#include <signal.h>
#include <stdarg.h>
#include <stdbool.h>
#include <stdint.h>
#include <stdio.h>
#include <stdlib.h>
#include <string.h>
#include <sys/ioctl.h>
#include <sys/socket.h>
#include <sys/stat.h>
#include <sys/wait.h>
#include <time.h>
#include <unistd.h>

// the number is the first in CHANGES
static const char VERSION[] = "0.1.0\nnot proved: tested by tests/live";

static const char HELP[] =
    "Runs a translator between two TUN devices: the packets that they receive go to it at once, as captures over pipes, and\n"
    "the packets that it writes leave through them.\n"
    "\n"
    "usage: %s [--keep DIR] [--state FILE] [--ready-fd N] INSIDE OUTSIDE PROGRAM [WORD ..]\n"
    "       %s --help | --version\n"
    "\n"
    "INSIDE and OUTSIDE are the names of existing TUN devices; NAME@FILE is one of another network namespace, as\n"
    "outside0@/run/netns/outside. PROGRAM (%s) is started with the words given, and with --inside, --outside,\n"
    "--to-outside and --to-inside, each with a pipe; if the words have --log and no --name, it also gets --name with the\n"
    "host's name. Once it has opened its files and the devices carry packets, the relay prints that it is ready.\n"
    "\n"
    "  --keep DIR      keeps the captures of the packets to PROGRAM and from it in DIR, named after its options, as\n"
    "                  inside.pcap. If one of an earlier run is there, the relay ends at once; with --state, or with --resume\n"
    "                  among the words, it takes the next number instead, as inside-2.pcap. If it ends before it is ready, it\n"
    "                  leaves none. If one cannot be written any more, as on a full disk, a line says so, and the captures end\n"
    "                  as after SIGTERM: that one with its last whole record, and PROGRAM gets no packet that is not kept\n"
    "  --state FILE    the run goes on from the state FILE, which its own state replaces at the end: PROGRAM gets --resume FILE\n"
    "                  and --save FILE.saved, which is renamed if all has ended in good order, and FILE.begun is removed. A\n"
    "                  relay that is killed leaves both as they were, although to PROGRAM that is the end of the captures. If\n"
    "                  FILE.begun is there, as for a gateway, both also stay if PROGRAM fails after it was ready, or if a\n"
    "                  capture or the report cannot be written. A line says so: the next start of the gateway makes it good\n"
    "  --ready-fd N    also writes the line 'ready' to the open file N, and closes it; it is closed without the line if the\n"
    "                  relay ends before\n"
    "\n"
    "A packet becomes a record of raw IP (link type 101) with the time at which it was read; the times of all records differ\n"
    "and grow. They go on from the real time at which the relay began as the monotonic clock does, whatever the system's\n"
    "clock is set to meanwhile; if the two differ by more than a second, a line says so.\n"
    "\n"
    "After packets that were read together, the other side gets a record without bytes, which shows that time has passed, so\n"
    "that no packet waits for the next one of the other side. These records are not packets: the captures in DIR do not have\n"
    "them, and in the report (--report FILE of the words) the relay subtracts them from the packets and from those that are\n"
    "truncated. If no packet comes for a minute, both sides get a record without bytes, so that timers end, and a log with a\n"
    "name gets a row; the captures in DIR have these records, and the report counts them.\n"
    "\n"
    "SIGTERM, SIGINT and SIGHUP end the captures: the packets so far are translated and leave, and PROGRAM writes all of the\n"
    "report, the log (--log FILE of the words) and the state (--save FILE). PROGRAM itself is started so that it ignores these\n"
    "signals. If it is started again with --resume FILE, it goes on with the bindings and the log, also under another\n"
    "configuration or as another version. If the clock is earlier than that state, a line says so. If a device is deleted, a\n"
    "line says so, and the captures end. If PROGRAM ends by itself, the relay ends, too. The status is that of PROGRAM; it is 1\n"
    "if a device, a folder or PROGRAM cannot be opened, a device is deleted, or a capture or the report cannot be written, and\n"
    "2 for wrong arguments.\n";

enum {
    HEADER_BYTES = 24,
    RECORD_BYTES = 16,
    MOST_PACKET = 65536,
    // packets of a device that are taken before what came is handed on
    AT_ONCE = 256,
    // a side is not read while its packets wait in this number of bytes
    MOST_WAITING = 1 << 20,
    PIPE_BYTES = 1 << 20,
    PIECE = 1 << 18,
    // how long a device may take until it carries packets, in milliseconds
    MOST_CARRIER = 2000,
    // what is kept, each way on both sides
    KEPT = 4,
};

static const uint64_t SECOND = 1000000000, MINUTE = 60 * SECOND;

static const char *name = "relay";

// What hinders the work, in a line.
static void fail(int status, const char *format, ...) {
    va_list words;
    va_start(words, format);
    fprintf(stderr, "%s: ", name);
    vfprintf(stderr, format, words);
    fputc('\n', stderr);
    va_end(words);
    exit(status);
}

static void *some(void *memory) {
    if (!memory) fail(1, "memory ran out");
    return memory;
}

static char *joined(const char *front, const char *end) {
    char *both;
    if (asprintf(&both, "%s%s", front, end) < 0) some(NULL);
    return both;
}

// BYTES THAT WAIT

typedef struct {
    uint8_t *at;
    size_t begin, end, room;
} Bytes;

static size_t length(const Bytes *bytes) { return bytes->end - bytes->begin; }

// Makes room for this number of further bytes, and returns their place; `end` is the caller's to move.
static uint8_t *room_for(Bytes *bytes, size_t more) {
    if (bytes->begin == bytes->end) bytes->begin = bytes->end = 0;
    if (bytes->end + more > bytes->room && bytes->begin > 0) {
        memmove(bytes->at, bytes->at + bytes->begin, length(bytes));
        bytes->end -= bytes->begin;
        bytes->begin = 0;
    }
    if (bytes->end + more > bytes->room) {
        bytes->room = 2 * (bytes->end + more);
        bytes->at = some(realloc(bytes->at, bytes->room));
    }
    return bytes->at + bytes->end;
}

static void put(Bytes *bytes, const void *data, size_t many) {
    memcpy(room_for(bytes, many), data, many);
    bytes->end += many;
}

// THE CLOCK

// what the real clock was ahead of the monotonic one as the relay began, in nanoseconds
static uint64_t ahead;

static uint64_t time_of(clockid_t clock) {
    struct timespec time;
    clock_gettime(clock, &time);
    return (uint64_t)time.tv_sec * SECOND + (uint64_t)time.tv_nsec;
}

// What the real clock is ahead of the monotonic one, which goes on while the system sleeps.
static uint64_t lead_of_real(void) { return time_of(CLOCK_REALTIME) - time_of(CLOCK_BOOTTIME); }

// Tells the time in nanoseconds, and no time twice.
static uint64_t now(void) {
    static uint64_t last;
    uint64_t told = time_of(CLOCK_BOOTTIME) + ahead;
    last = told > last ? told : last + 1;
    return last;
}

// Says where the real clock has come apart from the times of packets by more than a second since that was said last.
static void watch_clock(void) {
    static int64_t said;
    int64_t apart = (int64_t)(lead_of_real() - ahead);
    if (llabs(apart - said) <= (int64_t)SECOND) return;
    said = apart;
    fprintf(stderr, "%s: the system's clock was set: it differs by %+.1f s from the times of packets, which go on as before\n", name,
            (double)apart / (double)SECOND);
}

// Writes a time in nanoseconds as a date (RFC 3339).
static const char *date_of(char date[40], uint64_t time) {
    time_t seconds = (time_t)(time / SECOND);
    size_t many = strftime(date, 40, "%Y-%m-%dT%H:%M:%S", gmtime(&seconds));
    snprintf(date + many, 40 - many, ".%09" PRIu64 "Z", time % SECOND);
    return date;
}

// Says where the clock is behind that of the state from which the program goes on.
static void compare_clock(const char *path) {
    uint64_t saved, time = now();
    char dates[2][40];
    FILE *state = fopen(path, "re");
    if (state && fscanf(state, "clock %" SCNu64, &saved) == 1 && time < saved)
        fprintf(stderr, "%s: it is %s, earlier than the state's time, %s: until then packets count as at that time, and no timer ends\n",
                name, date_of(dates[0], time), date_of(dates[1], saved));
    if (state) fclose(state);
}

// DEVICES

typedef struct {
    const char *word;
    char name[IFNAMSIZ];
    int file;
    // a socket of the device's namespace
    int socket;
} Device;

static void enter(int namespace, const char *word) {
    if (setns(namespace, CLONE_NEWNET)) fail(1, "%s: %s", word, strerror(errno));
}

static short flags_of(const Device *device) {
    struct ifreq asked = {0};
    memcpy(asked.ifr_name, device->name, IFNAMSIZ);
    return ioctl(device->socket, SIOCGIFFLAGS, &asked) ? -1 : asked.ifr_flags;
}

// Opens a TUN device that is there, in the namespace that the process is in.
static void open_here(Device *device) {
    device->socket = socket(AF_INET, SOCK_DGRAM | SOCK_CLOEXEC, 0);
    if (device->socket < 0) fail(1, "%s: %s", device->word, strerror(errno));
    // TUNSETIFF would make it
    if (flags_of(device) == -1) fail(1, "%s: there is no such device (ip tuntap add mode tun name %s makes it)", device->word, device->name);
    device->file = open("/dev/net/tun", O_RDWR | O_NONBLOCK | O_CLOEXEC);
    if (device->file < 0) fail(1, "/dev/net/tun: %s", strerror(errno));
    // packets that it sends come in through NAPI, which joins those of one TCP flow
    struct ifreq asked = {.ifr_flags = IFF_TUN | IFF_NO_PI | IFF_NAPI};
    memcpy(asked.ifr_name, device->name, IFNAMSIZ);
    if (ioctl(device->file, TUNSETIFF, &asked))
        fail(1, "%s: %s", device->word, errno == EINVAL ? "it is no TUN device" : strerror(errno));
}

// Opens the device that a word names, of this namespace or of the one after an @.
static Device open_device(const char *word) {
    Device device = {.word = word};
    const char *mark = strchrnul(word, '@');
    size_t many = (size_t)(mark - word);
    if (many == 0 || many >= IFNAMSIZ) fail(1, "%s: no device has such a name", word);
    memcpy(device.name, word, many);
    int own = open("/proc/self/ns/net", O_RDONLY | O_CLOEXEC);
    if (own < 0) fail(1, "/proc/self/ns/net: %s", strerror(errno));
    if (*mark) {
        int namespace = open(mark + 1, O_RDONLY | O_CLOEXEC);
        if (namespace < 0) fail(1, "%s: %s", mark + 1, strerror(errno));
        enter(namespace, word);
        close(namespace);
    }
    open_here(&device);
    enter(own, word);
    close(own);
    return device;
}

// Waits until a device carries packets, where it is up.
static void wait_for_carrier(const Device *device) {
    for (int waited = 0; waited < MOST_CARRIER; waited += 5) {
        short flags = flags_of(device);
        if (flags == -1 || !(flags & IFF_UP) || flags & IFF_RUNNING) return;
        usleep(5000);
    }
}

// CAPTURES

// set where the captures are to end
static volatile sig_atomic_t is_over;
// the signals that set it
static const int ENDING[] = {SIGTERM, SIGINT, SIGHUP};
enum { ENDINGS = sizeof ENDING / sizeof *ENDING };

// A capture that is kept: its file, or -1 where none is or no more can be written, how much that has, in whole records, and the
// records that are to follow.
typedef struct {
    int file;
    char *path;
    size_t size;
    Bytes text;
} Kept;

// the paths of those that were made, whether the relay was ready, whether they and the report could be written so far, and whether
// both devices are there
static char *made[KEPT];
static int many_made;
static bool is_ready, are_whole = true, are_there = true;

// Leaves no capture of a run that was never ready.
static void take_back(void) {
    while (!is_ready && many_made > 0) unlink(made[--many_made]);
}

// Where captures are kept, if they are, and their number, which names have from 2 on.
typedef struct {
    const char *path;
    int number;
} Folder;

static const char *const OPTIONS[KEPT] = {"inside", "outside", "to-inside", "to-outside"};

static char *path_in(const Folder *folder, const char *option) {
    char *path, number[16] = "";
    if (folder->number > 1) snprintf(number, sizeof number, "-%d", folder->number);
    if (asprintf(&path, "%s/%s%s.pcap", folder->path, option, number) < 0) some(NULL);
    return path;
}

// The number of a capture by its name, or 0 where it is none that was kept.
static int number_of(const char *file) {
    for (int at = 0; at < KEPT; at++) {
        size_t many = strlen(OPTIONS[at]);
        if (strncmp(file, OPTIONS[at], many) != 0) continue;
        int number = 0, end = 0;
        if (strcmp(file + many, ".pcap") == 0) return 1;
        if (sscanf(file + many, "-%9d.pcap%n", &number, &end) == 1 && end > 0 && !file[many + (size_t)end]) return number;
    }
    return 0;
}

// Takes the number after the greatest of the captures that are there.
static void number_on(Folder *folder) {
    int greatest = 0;
    DIR *there = opendir(folder->path);
    if (!there) fail(1, "%s: %s", folder->path, strerror(errno));
    for (struct dirent *entry; (entry = readdir(there));) {
        int number = number_of(entry->d_name);
        if (number > greatest) greatest = number;
    }
    closedir(there);
    folder->number = greatest + 1;
}

static Kept kept_file(const Folder *folder, const char *option) {
    Kept kept = {.file = -1};
    if (!folder->path) return kept;
    kept.path = path_in(folder, option);
    kept.file = open(kept.path, O_WRONLY | O_CREAT | O_EXCL | O_CLOEXEC, 0666);
    if (kept.file < 0 && errno == EEXIST)
        fail(1, "%s: a capture of an earlier run is there: --keep names a folder without any, or --resume goes on", kept.path);
    if (kept.file < 0) fail(1, "%s: %s", kept.path, strerror(errno));
    made[many_made++] = kept.path;
    return kept;
}

static size_t record_length(const uint8_t *record) {
    uint32_t fields[4];
    memcpy(fields, record, RECORD_BYTES);
    return RECORD_BYTES + fields[2];
}

// The bytes of the records that are whole.
static size_t whole_records(const uint8_t *records, size_t many) {
    size_t end = 0;
    while (many - end >= RECORD_BYTES && many - end >= record_length(records + end)) end += record_length(records + end);
    return end;
}

static void close_file(Kept *kept) {
    close(kept->file);
    kept->file = -1;
}

// Ends the captures where one cannot be written, and says so of the first; all others are still kept. Its file keeps the records that
// are whole among the bytes that were written. Returns the bytes of those that are not kept.
static size_t cut(Kept *kept, size_t written) {
    if (are_whole) fprintf(stderr, "%s: %s: %s: the captures end\n", name, kept->path, strerror(errno));
    are_whole = false;
    is_over = 1;
    size_t header = kept->size > 0 ? 0 : HEADER_BYTES, whole = 0;
    if (written >= header) whole = header + whole_records(kept->text.at + kept->text.begin + header, written - header);
    if (ftruncate(kept->file, (off_t)(kept->size + whole))) errno = 0;
    close_file(kept);
    return length(&kept->text) - whole;
}

static void keep(Kept *kept, const void *data, size_t many) {
    if (kept->file >= 0) put(&kept->text, data, many);
}

// Hands what was kept so far to the system, so that it is there where the relay is killed. Returns the bytes of records that are not.
static size_t flush_kept(Kept *kept) {
    size_t all = length(&kept->text), written = 0;
    while (kept->file >= 0 && written < all) {
        ssize_t many = write(kept->file, kept->text.at + kept->text.begin + written, all - written);
        if (many < 0 && errno != EINTR) return cut(kept, written);
        if (many > 0) written += (size_t)many;
    }
    kept->size += written;
    kept->text.begin = kept->text.end;
    return 0;
}

static void close_kept(Kept *kept) {
    flush_kept(kept);
    if (kept->file >= 0) close_file(kept);
}

// The packets of a device, on their way to the program.
typedef struct {
    Device *device;
    int pipe, far;
    Bytes waiting;
    Kept kept;
    // records without bytes
    uint64_t clocks;
    bool is_open;
} Side;

static void pipe_of(int *reads, int *writes) {
    int ends[2];
    if (pipe2(ends, O_CLOEXEC)) fail(1, "pipe: %s", strerror(errno));
    fcntl(ends[1], F_SETPIPE_SZ, PIPE_BYTES);
    *reads = ends[0];
    *writes = ends[1];
}

static void set_record(uint8_t *record, uint32_t bytes) {
    uint64_t time = now();
    uint32_t fields[4] = {(uint32_t)(time / SECOND), (uint32_t)(time % SECOND), bytes, bytes};
    memcpy(record, fields, RECORD_BYTES);
}

static Side side_of(Device *device, const Folder *folder, const char *option) {
    // magic of nanoseconds, version 2.4, zone, significant figures, most bytes of a packet, raw IP
    static const uint32_t HEADER[6] = {0xA1B23C4D, 0x00040002, 0, 0, 262144, 101};
    Side side = {.device = device, .kept = kept_file(folder, option), .is_open = true};
    pipe_of(&side.far, &side.pipe);
    fcntl(side.pipe, F_SETFL, O_NONBLOCK);
    put(&side.waiting, HEADER, HEADER_BYTES);
    keep(&side.kept, HEADER, HEADER_BYTES);
    flush_kept(&side.kept);
    return side;
}

// Adds a record without bytes, which shows a side that time has passed.
static const uint8_t *add_empty(Side *side) {
    uint8_t *record = room_for(&side->waiting, RECORD_BYTES);
    set_record(record, 0);
    side->waiting.end += RECORD_BYTES;
    return record;
}

// Shows a side that time has passed since packets of the other one.
static void tick(Side *side) {
    add_empty(side);
    side->clocks++;
}

// Shows a side that no packet came for a minute, in its capture, too.
static void tick_quiet(Side *side) {
    if (!side->is_open || is_over) return;
    keep(&side->kept, add_empty(side), RECORD_BYTES);
    side->waiting.end -= flush_kept(&side->kept);
}

// Takes the packets that are there, up to some, and returns whether there were any.
static bool read_packets(Side *side) {
    int taken = 0;
    for (; taken < AT_ONCE; taken++) {
        uint8_t *record = room_for(&side->waiting, RECORD_BYTES + MOST_PACKET);
        ssize_t many = read(side->device->file, record + RECORD_BYTES, MOST_PACKET);
        if (many <= 0) break;
        set_record(record, (uint32_t)many);
        keep(&side->kept, record, RECORD_BYTES + (size_t)many);
        side->waiting.end += RECORD_BYTES + (size_t)many;
    }
    // a packet is in the capture that is kept before the program knows of it, and so before its rows are in the log
    side->waiting.end -= flush_kept(&side->kept);
    return taken > 0;
}

// Hands on what waits, as far as the pipe takes it, and returns whether the program still reads.
static bool write_on(Side *side) {
    while (length(&side->waiting) > 0) {
        ssize_t many = write(side->pipe, side->waiting.at + side->waiting.begin, length(&side->waiting));
        if (many < 0) return errno == EAGAIN || errno == EINTR;
        side->waiting.begin += (size_t)many;
    }
    return true;
}

static void close_side(Side *side) {
    if (side->is_open) close(side->pipe);
    side->is_open = false;
}

// The packets of the program, on their way to a device.
typedef struct {
    Device *device;
    int pipe, far;
    Bytes text;
    Kept kept;
    bool has_begun, is_open;
} Exit;

static Exit exit_of(Device *device, const Folder *folder, const char *option) {
    Exit leaves = {.device = device, .kept = kept_file(folder, option), .is_open = true};
    pipe_of(&leaves.pipe, &leaves.far);
    return leaves;
}

// Sends the packets that are there whole. One that the device does not take is lost, as on any link.
static void send_whole(Exit *leaves) {
    Bytes *text = &leaves->text;
    const uint8_t *record = text->at + text->begin, *end = record + whole_records(record, length(text));
    keep(&leaves->kept, record, (size_t)(end - record));
    if (length(&leaves->kept.text) >= PIECE) flush_kept(&leaves->kept);
    text->begin += (size_t)(end - record);
    for (; record < end; record += record_length(record))
        if (write(leaves->device->file, record + RECORD_BYTES, record_length(record) - RECORD_BYTES) < 0) errno = 0;
}

// Takes what the program wrote, and sends its packets.
static void read_on(Exit *leaves) {
    ssize_t many = read(leaves->pipe, room_for(&leaves->text, PIECE), PIECE);
    if (many < 0 && errno == EINTR) return;
    if (many <= 0) {
        close(leaves->pipe);
        leaves->is_open = false;
        return;
    }
    leaves->text.end += (size_t)many;
    if (!leaves->has_begun && length(&leaves->text) >= HEADER_BYTES) {
        keep(&leaves->kept, leaves->text.at + leaves->text.begin, HEADER_BYTES);
        leaves->text.begin += HEADER_BYTES;
        leaves->has_begun = true;
    }
    if (leaves->has_begun) send_whole(leaves);
}

// THE REPORT

typedef struct {
    const char *path;
    int pipe, far, file;
    Bytes text;
    bool is_open;
} Report;

// Opens the file of the report, and leaves what is in it until there is another.
static void open_report(Report *report) {
    if (!report->path) return;
    report->file = open(report->path, O_WRONLY | O_CREAT | O_CLOEXEC, 0666);
    if (report->file < 0) fail(1, "%s: %s", report->path, strerror(errno));
    pipe_of(&report->pipe, &report->far);
    report->is_open = true;
}

static void read_report(Report *report) {
    ssize_t many = read(report->pipe, room_for(&report->text, PIECE), PIECE);
    if (many < 0 && errno == EINTR) return;
    if (many > 0) {
        report->text.end += (size_t)many;
        return;
    }
    close(report->pipe);
    report->is_open = false;
}

// Writes a line of the report: records without bytes are no packets.
static void write_line(FILE *file, const char *line, size_t many, uint64_t clocks) {
    static const char *const COUNTS[] = {"packets ", "drop truncated "};
    for (size_t at = 0; at < 2; at++) {
        size_t word = strlen(COUNTS[at]);
        if (many > word && memcmp(line, COUNTS[at], word) == 0) {
            uint64_t told = strtoull(line + word, NULL, 10);
            fprintf(file, "%s%llu\n", COUNTS[at], (unsigned long long)(told - clocks));
            return;
        }
    }
    fwrite(line, 1, many, file);
}

// Writes the report, if the program wrote one, and says where that fails.
static void write_report(Report *report, uint64_t clocks) {
    if (!report->path || length(&report->text) == 0) return;
    put(&report->text, "", 1);
    FILE *file = some(fdopen(report->file, "wb"));
    bool is_written = ftruncate(report->file, 0) == 0 || errno == EINVAL;
    const char *line = (const char *)report->text.at + report->text.begin;
    for (const char *end; (end = strchr(line, '\n')); line = end + 1) write_line(file, line, (size_t)(end + 1 - line), clocks);
    if (is_written && !ferror(file) && fclose(file) == 0) return;
    fprintf(stderr, "%s: %s: %s: the report cannot be written\n", name, report->path, strerror(errno));
    are_whole = false;
}

// THE PROGRAM

typedef struct {
    Side sides[2];
    Exit exits[2];
    Report report;
    // the state from which the run goes on and whose place its own takes, or NULL, where the program saves that, and what its start noted
    const char *state;
    char *saved, *begun;
    // when the last packet came, or the last minute without one ended
    uint64_t quiet_since;
    pid_t program;
    int ready_fd;
    // signals that were blocked at first: those that end the captures come while the relay waits, and at no other time
    sigset_t mask;
} Relay;

static void note_end(int number) {
    (void)number;
    is_over = 1;
}

// Takes --report and its file out of the words.
static void take_report(Relay *relay, char **words, int *many) {
    int kept = 0;
    for (int at = 0; at < *many; at++) {
        if (strcmp(words[at], "--report") == 0 && at + 1 < *many)
            relay->report.path = words[++at];
        else if (strncmp(words[at], "--report=", 9) == 0)
            relay->report.path = words[at] + 9;
        else
            words[kept++] = words[at];
    }
    *many = kept;
}

// The file of --resume among the words, or NULL.
static const char *resumed(char **words, int many) {
    for (int at = 0; at < many; at++) {
        if (strcmp(words[at], "--resume") == 0 && at + 1 < many) return words[at + 1];
        if (strncmp(words[at], "--resume=", 9) == 0) return words[at] + 9;
    }
    return NULL;
}

static void add_words(char **words, int *many, const char *option, const char *value) {
    words[(*many)++] = some(strdup(option));
    words[(*many)++] = some(strdup(value));
}

static bool has_option(char **words, int many, const char *option) {
    size_t length = strlen(option);
    for (int at = 0; at < many; at++)
        if (strncmp(words[at], option, length) == 0 && (words[at][length] == 0 || words[at][length] == '=')) return true;
    return false;
}

// Adds the name of the host for the rows of its log that say whose it is, unless the words have a name. What no name may have becomes a
// hyphen.
static void add_name(char **words, int *many) {
    char host[65] = "";
    if (!has_option(words, *many, "--log") || has_option(words, *many, "--name")) return;
    if (gethostname(host, sizeof host - 1) != 0 || host[0] == 0) return;
    for (char *it = host; *it; it++)
        if (!isalnum((unsigned char)*it) && !strchr(".-_", *it)) *it = '-';
    add_words(words, many, "--name", host);
}

static void add_option(char **words, int *many, const char *option, int end) {
    char path[32];
    snprintf(path, sizeof path, "/dev/fd/%d", end);
    add_words(words, many, option, path);
    fcntl(end, F_SETFD, 0);
}

// Starts the program with its ends of the pipes.
static void start(Relay *relay, char **given, int many) {
    char **words = some(calloc((size_t)many + 17, sizeof *words));
    memcpy(words, given, (size_t)many * sizeof *words);
    relay->program = fork();
    if (relay->program < 0) fail(1, "fork: %s", strerror(errno));
    if (relay->program == 0) {
        signal(SIGPIPE, SIG_DFL);
        signal(SIGXFSZ, SIG_DFL);
        // these are the relay's to see, also where a whole service gets them: it ends the captures, and so the program
        for (int at = 0; at < ENDINGS; at++) signal(ENDING[at], SIG_IGN);
        sigprocmask(SIG_SETMASK, &relay->mask, NULL);
        if (relay->ready_fd >= 0) close(relay->ready_fd);
        add_option(words, &many, "--inside", relay->sides[0].far);
        add_option(words, &many, "--outside", relay->sides[1].far);
        add_option(words, &many, "--to-inside", relay->exits[0].far);
        add_option(words, &many, "--to-outside", relay->exits[1].far);
        if (relay->report.path) add_option(words, &many, "--report", relay->report.far);
        if (relay->state) add_words(words, &many, "--resume", relay->state);
        if (relay->state) add_words(words, &many, "--save", relay->saved);
        add_name(words, &many);
        // nor does another key of a terminal end or stop it
        setpgid(0, 0);
        execvp(words[0], words);
        fprintf(stderr, "%s: %s: %s\n", name, words[0], strerror(errno));
        _exit(1);
    }
    for (int at = 0; at < 2; at++) {
        close(relay->sides[at].far);
        close(relay->exits[at].far);
    }
    if (relay->report.path) close(relay->report.far);
    free(words);
}

// Says that packets get through, once the program has begun both captures that it writes.
static void tell_ready(Relay *relay) {
    if (is_ready || !relay->exits[0].has_begun || !relay->exits[1].has_begun) return;
    is_ready = true;
    for (int at = 0; at < 2; at++) wait_for_carrier(relay->sides[at].device);
    fprintf(stderr, "%s: ready\n", name);
    if (relay->ready_fd >= 0) {
        if (write(relay->ready_fd, "ready\n", 6) < 0) errno = 0;
        close(relay->ready_fd);
    }
}

// THE LOOP

static struct pollfd watched(int file, short events) { return (struct pollfd){.fd = events ? file : -1, .events = events}; }

// What is waited for: a device while its packets find room, a pipe while something waits for it, and what the program writes.
static void watch(const Relay *relay, struct pollfd *files) {
    for (int at = 0; at < 2; at++) {
        const Side *side = &relay->sides[at];
        bool has_room = !is_over && side->is_open && length(&side->waiting) < MOST_WAITING;
        files[at] = watched(side->device->file, has_room ? POLLIN : 0);
        files[2 + at] = watched(side->pipe, side->is_open && length(&side->waiting) > 0 ? POLLOUT : 0);
        files[4 + at] = watched(relay->exits[at].pipe, relay->exits[at].is_open ? POLLIN : 0);
    }
    files[6] = watched(relay->report.pipe, relay->report.is_open ? POLLIN : 0);
}

// Takes packets of both devices. The side that was not the last gets a record after them, whose time lets them go on.
static void take_packets(Relay *relay, const struct pollfd *files) {
    int last = -1;
    for (int at = 0; at < 2; at++)
        if (files[at].revents & POLLIN && read_packets(&relay->sides[at])) last = at;
    if (last >= 0 && relay->sides[1 - last].is_open) tick(&relay->sides[1 - last]);
    if (last >= 0) relay->quiet_since = now();
}

// Tells both sides that a minute has passed without a packet, if one has. Returns how long it is until then.
static struct timespec watch_quiet(Relay *relay) {
    uint64_t quiet = now() - relay->quiet_since;
    if (quiet >= MINUTE) {
        for (int at = 0; at < 2; at++) tick_quiet(&relay->sides[at]);
        relay->quiet_since += quiet;
        quiet = 0;
    }
    uint64_t rest = MINUTE - quiet;
    return (struct timespec){.tv_sec = (time_t)(rest / SECOND), .tv_nsec = (long)(rest % SECOND)};
}

// Ends the captures where a device is gone, and says so.
static void watch_devices(const Relay *relay, const struct pollfd *files) {
    for (int at = 0; at < 2; at++) {
        if (!(files[at].revents & (POLLERR | POLLNVAL))) continue;
        fprintf(stderr, "%s: %s: the device is gone: the captures end\n", name, relay->sides[at].device->word);
        are_there = false;
        is_over = 1;
    }
}

// Hands on what came, and closes a side that is over.
static void hand_on(Relay *relay) {
    for (int at = 0; at < 2; at++) {
        Side *side = &relay->sides[at];
        if (!side->is_open) continue;
        // the program's end shows at what it writes
        bool is_read = write_on(side);
        if (!is_read || (is_over && length(&side->waiting) == 0)) close_side(side);
    }
}

static bool is_done(const Relay *relay) {
    return !relay->exits[0].is_open && !relay->exits[1].is_open && !relay->report.is_open;
}

// Hands on until the program has closed all that it writes.
static void run(Relay *relay) {
    struct pollfd files[7];
    relay->quiet_since = now();
    while (!is_done(relay)) {
        struct timespec rest = watch_quiet(relay);
        hand_on(relay);
        watch(relay, files);
        if (ppoll(files, 7, &rest, &relay->mask) < 0) continue;
        watch_clock();
        watch_devices(relay, files);
        take_packets(relay, files);
        for (int at = 0; at < 2; at++)
            if (files[4 + at].revents) read_on(&relay->exits[at]);
        if (files[6].revents) read_report(&relay->report);
        tell_ready(relay);
    }
}

static void note_signals(Relay *relay) {
    struct sigaction ends = {.sa_handler = note_end};
    sigset_t blocked;
    sigemptyset(&blocked);
    for (int at = 0; at < ENDINGS; at++) {
        sigaddset(&blocked, ENDING[at]);
        sigaction(ENDING[at], &ends, NULL);
    }
    sigprocmask(SIG_BLOCK, &blocked, &relay->mask);
    signal(SIGPIPE, SIG_IGN);
    // a file that may not grow is told as any that cannot be written
    signal(SIGXFSZ, SIG_IGN);
}

static int end_of(Relay *relay) {
    int status = 0;
    for (int at = 0; at < 2; at++) close_side(&relay->sides[at]);
    while (waitpid(relay->program, &status, 0) < 0 && errno == EINTR) continue;
    for (int at = 0; at < 2; at++) {
        close_kept(&relay->sides[at].kept);
        close_kept(&relay->exits[at].kept);
    }
    write_report(&relay->report, relay->sides[0].clocks + relay->sides[1].clocks);
    if (WIFSIGNALED(status)) fprintf(stderr, "%s: the program was ended by signal %d\n", name, WTERMSIG(status));
    int told = WIFSIGNALED(status) ? 128 + WTERMSIG(status) : WEXITSTATUS(status);
    if (is_ready && (told || !are_whole) && relay->state && access(relay->begun, F_OK) == 0)
        fprintf(stderr, "%s: %s is the state before this run: the next start runs the packets that were kept through the program again\n",
                name, relay->state);
    else if (told == 0 && relay->state) {
        if (rename(relay->saved, relay->state)) fail(1, "%s: %s", relay->state, strerror(errno));
        unlink(relay->begun);
    }
    return told || (are_whole && are_there) ? told : 1;
}

// WORDS

static int help(void) {
    bool is_installed = strcmp(name, "napt-relay") == 0;
    const char *call = is_installed ? name : "examples/live/relay";
    printf(HELP, call, call, is_installed ? "napt-stream" : "./stream");
    return 0;
}

// A number of an open file.
static int file_number(const char *word) {
    char *end;
    long number = strtol(word, &end, 10);
    if (!*word || *end || number < 0 || number > 1000000 || fcntl((int)number, F_GETFD) < 0)
        fail(2, "--ready-fd %s: no open file has this number", word);
    return (int)number;
}

int main(int many, char **words) {
    const char *slash = strrchr(words[0], '/');
    if (strcmp(slash ? slash + 1 : words[0], "napt-relay") == 0) name = "napt-relay";
    if (many == 2 && (strcmp(words[1], "--help") == 0 || strcmp(words[1], "-h") == 0)) return help();
    if (many == 2 && (strcmp(words[1], "--version") == 0 || strcmp(words[1], "-V") == 0)) return printf("%s %s\n", name, VERSION) < 0;
    ahead = lead_of_real();
    atexit(take_back);
    Relay relay = {.ready_fd = -1};
    Folder folder = {.number = 1};
    int at = 1;
    for (; at + 1 < many && strncmp(words[at], "--", 2) == 0; at += 2) {
        if (strcmp(words[at], "--keep") == 0)
            folder.path = words[at + 1];
        else if (strcmp(words[at], "--state") == 0)
            relay.state = words[at + 1];
        else if (strcmp(words[at], "--ready-fd") == 0)
            relay.ready_fd = file_number(words[at + 1]);
        else
            break;
    }
    if (many - at < 3 || words[at][0] == '-') fail(2, "unknown words (see %s --help)", name);
    Device devices[2] = {open_device(words[at]), open_device(words[at + 1])};
    int left = many - at - 2;
    if (relay.state) {
        relay.saved = joined(relay.state, ".saved");
        relay.begun = joined(relay.state, ".begun");
    }
    take_report(&relay, words + at + 2, &left);
    open_report(&relay.report);
    note_signals(&relay);
    const char *state = relay.state ? relay.state : resumed(words + at + 2, left);
    if (folder.path && state) number_on(&folder);
    if (state) compare_clock(state);
    for (int side = 0; side < 2; side++) {
        relay.sides[side] = side_of(&devices[side], &folder, OPTIONS[side]);
        relay.exits[side] = exit_of(&devices[side], &folder, OPTIONS[2 + side]);
    }
    start(&relay, words + at + 2, left);
    run(&relay);
    return end_of(&relay);
}
