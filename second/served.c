/*
 * served: the library for a second program that cannot link it, because the machine's processor is not x86-64. It reads requests on standard input and
 * writes an answer to each. Numbers have 64 bits, little endian.
 *
 *   request   the call, as the letter t, f, b or j; the length of the chart; the length of the report; the chart; the report
 *   answer    what the call answered; for the test also the report, as it is after the call
 *
 * A chart and a report are lent as copies of exactly their length between guard bytes, at an address that moves from call to call. Before it answers it looks
 * whether the call changed a guard byte, or a byte of what it may only read. If so, it says this on standard error and ends with status 1. It ends with
 * status 0 where the input ends. `tools/compile second/served.c` builds it, `src/served.rs` starts it.
 */

/* What is used of C's library and of ours: the compiler of the Rattle kit has no headers. */
typedef unsigned char byte;
typedef unsigned int u32;
typedef unsigned long u64;
void *malloc(u64 size);
void *realloc(void *old, u64 size);
void free(void *block);
void *memcpy(void *to, const void *from, u64 size);
int memcmp(const void *one, const void *other, u64 size);
u64 strlen(const char *text);
long read(int file, void *to, u64 size);
long write(int file, const void *from, u64 size);
void exit(int status) __attribute__((noreturn));
u32 rinsholupe_test(const byte *chart, u64 chart_len, byte *report, u64 report_len);
u32 rinsholupe_form(const byte *report, u64 report_len);
u64 rinsholupe_body(const byte *report, u64 report_len);
u32 rinsholupe_judge(const byte *chart, u64 chart_len, const byte *report, u64 report_len);

enum { GUARD = 64 };

/* The three numbers before the bytes of a request. */
struct head {
    u64 call, chart_len, report_len;
};

/* What is lent: a copy of some bytes within a block that has guard bytes before and after it. */
struct lent {
    byte *block, *bytes;
    u64 len;
};

/* How many requests there were. The guard bytes and the addresses change with it. */
static u64 requests;

static void fail(const char *words) __attribute__((noreturn));
static void fail(const char *words) {
    if (write(2, "served: ", 8) < 0 || write(2, words, strlen(words)) < 0 || write(2, "\n", 1) < 0) {
        exit(2);
    }
    exit(1);
}

static byte guard(u64 at) { return (byte)((at + requests) * 167 + 13); }

static u64 shift(void) { return requests % 8; }

static struct lent lend(const byte *bytes, u64 len) {
    struct lent lent = {malloc(GUARD + shift() + len + GUARD), 0, len};
    if (!lent.block) {
        fail("no memory");
    }
    lent.bytes = lent.block + GUARD + shift();
    for (u64 i = 0; i < GUARD + shift(); i++) {
        lent.block[i] = guard(i);
    }
    memcpy(lent.bytes, bytes, len);
    for (u64 i = 0; i < GUARD; i++) {
        lent.bytes[len + i] = guard(i);
    }
    return lent;
}

/* Takes back what was lent: the guard bytes are to be as they were. */
static void take_back(struct lent lent) {
    for (u64 i = 0; i < GUARD + shift(); i++) {
        if (lent.block[i] != guard(i)) {
            fail("bytes before those lent changed");
        }
    }
    for (u64 i = 0; i < GUARD; i++) {
        if (lent.bytes[lent.len + i] != guard(i)) {
            fail("bytes after those lent changed");
        }
    }
    free(lent.block);
}

/* Room for a request, which is also the room for its answer. */
static byte *room;
static u64 room_len;

static void make_room(u64 len) {
    if (len > room_len) {
        room = realloc(room, len);
        room_len = len;
        if (!room) {
            fail("no memory");
        }
    }
}

/* Reads up to a length of at least `until`, where `came` bytes are there; says how many are there then. It is 0 where the input ends before a request. */
static u64 read_until(u64 came, u64 until) {
    while (came < until) {
        long more = read(0, room + came, room_len - came);
        if (more < 0 || (more == 0 && came > 0)) {
            fail("a request was not read to its end");
        }
        if (more == 0) {
            return 0;
        }
        came += (u64)more;
    }
    return came;
}

static void write_all(const byte *bytes, u64 len) {
    while (len > 0) {
        long written = write(1, bytes, len);
        if (written <= 0) {
            fail("an answer was not written");
        }
        bytes += written;
        len -= (u64)written;
    }
}

int main(void) {
    struct head head;
    make_room(1 << 16);
    for (;; requests++) {
        u64 came = read_until(0, sizeof head);
        if (came == 0) {
            return 0;
        }
        memcpy(&head, room, sizeof head);
        u64 len = sizeof head + head.chart_len + head.report_len;
        make_room(len);
        if (read_until(came, len) != len) {
            fail("more came than a request");
        }

        byte *chart_asked = room + sizeof head, *report_asked = chart_asked + head.chart_len;
        struct lent chart = lend(chart_asked, head.chart_len), report = lend(report_asked, head.report_len);
        u64 answer;
        switch (head.call) {
        case 't': answer = rinsholupe_test(chart.bytes, chart.len, report.bytes, report.len); break;
        case 'f': answer = rinsholupe_form(report.bytes, report.len); break;
        case 'b': answer = rinsholupe_body(report.bytes, report.len); break;
        case 'j': answer = rinsholupe_judge(chart.bytes, chart.len, report.bytes, report.len); break;
        default: fail("there is no such call");
        }
        if (memcmp(chart.bytes, chart_asked, chart.len) != 0) {
            fail("the chart's bytes changed");
        }
        if (head.call != 't' && memcmp(report.bytes, report_asked, report.len) != 0) {
            fail("the bytes of a report that is only read changed");
        }
        u64 back = head.call == 't' ? report.len : 0;
        memcpy(room, &answer, sizeof answer);
        memcpy(room + sizeof answer, report.bytes, back);
        take_back(chart);
        take_back(report);
        write_all(room, sizeof answer + back);
    }
}
