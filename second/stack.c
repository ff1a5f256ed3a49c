/*
 * stack [CHART..]: how much stack a call of the test and a call of the judge take. The calls are made on each chart in turn, those in the files named, or
 * without a name those on standard input, which has before each chart a flag and its length in 16 bits (crates/charts/stdin); the judge reads the report
 * that the test wrote. Prints the most that a call took, from the stack pointer where it is called down to the lowest word that it changed:
 *
 *   test N bytes
 *   judge N bytes
 *
 * Each call has a stack of its own, every word of which is painted before it. `tools/stack` builds and runs it.
 */

/* What is used of C's library and of ours: the compiler of the Rattle kit has no headers. */
typedef unsigned char byte;
typedef unsigned int u32;
typedef unsigned long u64;
int printf(const char *form, ...);
int dprintf(int file, const char *form, ...);
int open(const char *name, int flags, ...);
long read(int file, void *to, u64 size);
int close(int file);
void exit(int status) __attribute__((noreturn));
u32 rinsholupe_test(const byte *chart, u64 chart_len, byte *report, u64 report_len);
u32 rinsholupe_judge(const byte *chart, u64 chart_len, const byte *report, u64 report_len);

enum { WORDS = 1 << 17, ROOM = 6152, CHART = 1 << 16 };
#define PAINT 0x9C3B5DE1A6F27084

static u64 painted[WORDS] __attribute__((aligned(64)));
static byte chart[CHART], report[ROOM];
static u64 most_of_test, most_of_judge;

static void fail(const char *name, const char *words) __attribute__((noreturn));
static void fail(const char *name, const char *words) {
    dprintf(2, "stack: %s: %s\n", name, words);
    exit(1);
}

/* Calls with the painted stack, and keeps the depth in `most` if it is the most so far. */
static u32 measured(void *call, u64 chart_len, u64 report_len, u64 *most) {
    const byte *lent_chart = chart;
    byte *lent_report = report;
    u64 answer, lowest = 0;
    for (u64 i = 0; i < WORDS; i++) {
        painted[i] = PAINT;
    }
    __asm__ volatile("movq %%rsp, %%rbx\n\tmovq %[stack], %%rsp\n\tcall *%[call]\n\tmovq %%rbx, %%rsp"
                     : "=a"(answer), "+D"(lent_chart), "+S"(chart_len), "+d"(lent_report), "+c"(report_len)
                     : [stack] "r"(painted + WORDS), [call] "r"(call)
                     : "rbx", "r8", "r9", "r10", "r11", "xmm0", "xmm1", "xmm2", "xmm3", "xmm4", "xmm5", "xmm6", "xmm7", "xmm8", "xmm9", "xmm10", "xmm11",
                       "xmm12", "xmm13", "xmm14", "xmm15", "memory", "cc");
    while (lowest < WORDS && painted[lowest] == PAINT) {
        lowest++;
    }
    if (lowest == 0) {
        fail("a call", "the painted stack is too small");
    }
    u64 depth = (WORDS - lowest) * sizeof painted[0];
    if (depth > *most) {
        *most = depth;
    }
    return (u32)answer;
}

static void measure(u64 chart_len) {
    u32 answer = measured((void *)rinsholupe_test, chart_len, ROOM, &most_of_test);
    measured((void *)rinsholupe_judge, chart_len, answer & 0xFFFF, &most_of_judge);
}

/* Reads until there are as many bytes or the input ends; says how many came. */
static u64 read_all(int file, const char *name, byte *to, u64 size) {
    u64 came = 0;
    while (came < size) {
        long more = read(file, to + came, size - came);
        if (more < 0) {
            fail(name, "cannot be read");
        }
        if (more == 0) {
            break;
        }
        came += (u64)more;
    }
    return came;
}

static void measure_stored(void) {
    byte head[3];
    u64 came;
    while ((came = read_all(0, "standard input", head, sizeof head)) != 0) {
        u64 len = head[1] + 256 * (u64)head[2];
        if (came != sizeof head || read_all(0, "standard input", chart, len) != len) {
            fail("standard input", "ends within a chart");
        }
        measure(len);
    }
}

int main(int count, char **names) {
    if (count == 1) {
        measure_stored();
    }
    for (int i = 1; i < count; i++) {
        int file = open(names[i], 0);
        if (file < 0) {
            fail(names[i], "cannot be opened");
        }
        measure(read_all(file, names[i], chart, sizeof chart));
        close(file);
    }
    if (most_of_test == 0) {
        fail("standard input", "has no chart");
    }
    printf("test %lu bytes\njudge %lu bytes\n", most_of_test, most_of_judge);
    return 0;
}
