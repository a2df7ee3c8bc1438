/* What both programs share: a case from standard input, and the line that tells its answer.
 *
 * A case has the form that crates/sizes_test takes: a head of nine bytes, and a trace. The traces are valid ones, so
 * numbers are read without tests. */
typedef unsigned char u8;
typedef unsigned short u16;
typedef unsigned long u64;

/* Declared here: the kit has the C library and none of its headers. */
void *memmove(void *to, const void *from, u64 length);
long read(int file, void *to, u64 length);
long write(int file, const void *from, u64 length);

enum { HEAD = 9, LARGEST = 127, KINDS = 6, ROOM = 65536 };

static u8 bytes[ROOM];
static u64 counts[KINDS * LARGEST];

static u64 read_input(void) {
    u64 length = 0;
    for (long got; (got = read(0, bytes + length, ROOM - length)) > 0;)
        length += (u64)got;
    return length;
}

/* A number in groups of seven bits, the lowest first; the place moves past it. */
static inline u64 number(u64 *at) {
    u64 value = 0;
    for (int shift = 0;; shift += 7) {
        u8 byte = bytes[(*at)++];
        value |= (u64)(byte & 127) << shift;
        if (byte < 128)
            return value;
    }
}

/* The key of the block that the record at a place names, never 0. */
static inline u64 key(u64 *at) {
    u64 volume = number(at);
    return (volume << 32) + number(at) + 1;
}

/* The place that a record asks for by its priority: a read without a hint has 0, and asks for the top. */
static inline u64 asked(u64 *at) {
    u64 priority = number(at);
    return priority == 0 ? 1 : priority;
}

/* The same, and the compiler does not learn that it is at least 1: in b and d it makes longer code of that. */
static inline u64 asked_unknown(u64 *at) {
    u64 place = asked(at);
    __asm__("" : "+r"(place));
    return place;
}

static char line[16 * (KINDS * LARGEST + 8)];
static u64 told;

/* Always as many digits, so that telling large counts costs no more than telling small ones. */
static void tell(u64 value) {
    line[told] = ' ';
    for (int i = 10; i > 0; i--, value /= 10)
        line[told + i] = (char)('0' + value % 10);
    told += 11;
}

static void say(const char *text) {
    while (*text)
        line[told++] = *text++;
}

static void tell_run(u64 size, u64 reads, u64 total, u64 one) {
    say("done");
    tell(reads);
    tell(total);
    tell(one);
    say(" counts");
    for (u64 i = 0; i < KINDS * size; i++)
        tell(counts[i]);
    say("\n");
    write(1, line, told);
}
