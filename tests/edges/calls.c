/* Stands between a program and the C library: its reads of standard input, its writes to standard output, and its waits
 * until a file is on the disk go step by step as the variables READS, WRITES and SYNCS say, and after the last step as
 * usual.
 *
 * A step is a number: so many bytes at the most, or, below 0, the error that the call fails with. After a step that is
 * followed by * there is no other: it is taken again and again. */
typedef unsigned long size;

long syscall(long number, ...);
char *getenv(const char *name);
long strtol(const char *text, char **end, int base);
int *__errno_location(void);

enum { READ, WRITE, SYNC = 75 }; /* the system's numbers of the calls, on x86-64 */

static const char *steps[SYNC + 1];

/* The next step of a call, 0 where it goes as usual. */
static long step_of(int call, const char *name) {
    char *end;
    if (steps[call] == 0)
        steps[call] = getenv(name);
    if (steps[call] == 0 || *steps[call] == 0)
        return 0;
    long step = strtol(steps[call], &end, 10);
    if (*end != '*')
        steps[call] = end;
    return step;
}

static long failed(long step) {
    *__errno_location() = (int)-step;
    return -1;
}

static size at_most(size length, long step) {
    return step > 0 && (size)step < length ? (size)step : length;
}

long read(int file, void *to, size length) {
    long step = file == 0 ? step_of(READ, "READS") : 0;
    return step < 0 ? failed(step) : syscall(READ, file, to, at_most(length, step));
}

long write(int file, const void *from, size length) {
    long step = file == 1 ? step_of(WRITE, "WRITES") : 0;
    return step < 0 ? failed(step) : syscall(WRITE, file, from, at_most(length, step));
}

int fdatasync(int file) {
    long step = step_of(SYNC, "SYNCS");
    return (int)(step < 0 ? failed(step) : syscall(SYNC, file));
}
