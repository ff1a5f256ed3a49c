/*
 * Rinsholupe from C: the test of a chart, the reader of a report, the judge.
 *
 *   chart    the bytes of a chart file, version 1: events, arrows, and the darts clockwise round each event
 *   report   the bytes that the test writes into a room lent to it: a labelling, or why there is none
 *   stretch  the part of that room that the test wrote; the reader and the judge are given the stretch alone
 *   verdict  what the judge says of a chart and a report
 *
 * Of every call:
 *   - each pointer is valid for the length that follows it, and is not null even where that length is 0;
 *   - the report lent to rinsholupe_test overlaps nothing else that is lent to the same call;
 *   - no byte lent is altered by anyone else during the call, and no pointer is kept after it;
 *   - there is no global state, so calls may run on several threads; a call needs less than 60 KB of stack.
 * Nothing more is asked: bytes of any values and any length have an answer.
 *
 * Answers are packed into one number. The inline functions below take them apart.
 */
#ifndef RINSHOLUPE_H
#define RINSHOLUPE_H

#include <stdbool.h>
#include <stddef.h>
#include <stdint.h>

#if defined(__GNUC__)
#define RINSHOLUPE_NOT_NULL __attribute__((nonnull))
#else
#define RINSHOLUPE_NOT_NULL
#endif

#ifdef __cplusplus
extern "C" {
#endif

/* The least room of a report that the test takes: the header and a label for each of 6,144 corners. */
#define RINSHOLUPE_REPORT_ROOM 6152
/* The length of the longest chart, with 3,072 arrows. A longer one is refused. */
#define RINSHOLUPE_CHART_LIMIT 24587
/* The bytes of a report before its body. */
#define RINSHOLUPE_REPORT_HEADER 8
/* What rinsholupe_form answers on bad form. */
#define RINSHOLUPE_BAD_FORM UINT32_C(0xFFFFFFFF)

/* The numbers that the test gives, in the order of its tests. 0, 12, 13 and 14 are also the results of a report. */
enum rinsholupe_numbers {
    RINSHOLUPE_DRAWABLE = 0,      /* a labelling exists; the report holds one */
    RINSHOLUPE_SHORT_REPORT = 1,  /* the lent report has less than RINSHOLUPE_REPORT_ROOM bytes */
    RINSHOLUPE_MARK = 2,          /* the chart has less than 11 bytes, or doesn't begin with EVC */
    RINSHOLUPE_VERSION = 3,       /* the version isn't 1 */
    RINSHOLUPE_COUNTS = 4,        /* the number of events or of arrows is out of its range */
    RINSHOLUPE_LENGTH = 5,        /* the length isn't 11 + 8 x arrows */
    RINSHOLUPE_UNKNOWN_EVENT = 6, /* a tail or head is no event */
    RINSHOLUPE_OWN_ARROW = 7,     /* a tail equals its head */
    RINSHOLUPE_OUTER_DART = 8,    /* the outer dart is no dart */
    RINSHOLUPE_ORDER = 9,         /* the successors aren't one ring for each event, of exactly its darts */
    RINSHOLUPE_PARTED = 10,       /* the arrows don't join all events */
    RINSHOLUPE_CROSSING = 11,     /* events - arrows + faces isn't 2 */
    RINSHOLUPE_MIXED = 12,        /* an event is mixed; the report names the lowest */
    RINSHOLUPE_CIRCLE = 13,       /* some arrows form a circle; the report lists one */
    RINSHOLUPE_NO_ROOM = 14       /* no labelling exists; the report lists a cut */
};

/* The verdicts of the judge on a report, where the chart has no fault of its own. */
enum rinsholupe_verdicts {
    RINSHOLUPE_J0 = 0, /* the labels hold */
    RINSHOLUPE_J1 = 1, /* the cut holds */
    RINSHOLUPE_J2 = 2, /* bad form, or a result other than 0 or 14, or labels whose count isn't that of the corners */
    RINSHOLUPE_J3 = 3, /* the labels break a condition */
    RINSHOLUPE_J4 = 4  /* not strictly ascending, or something other than a source or sink, or no cut */
};

/* The labels in the body of a report with result 0, one byte for each corner in number order. */
enum rinsholupe_labels { RINSHOLUPE_SMALL = 0, RINSHOLUPE_PLAIN = 1, RINSHOLUPE_LARGE = 2 };

/*
 * The test: number x 65536 + bytes written.
 * For the numbers 1 to 11 nothing is written. Otherwise the report begins with the stretch written, and the bytes
 * beyond it stay.
 */
uint32_t rinsholupe_test(const uint8_t *chart, size_t chart_len, uint8_t *report,
                         size_t report_len) RINSHOLUPE_NOT_NULL;

/*
 * The form of a report: result x 65536 + count, or RINSHOLUPE_BAD_FORM.
 * A good form has a result of 0, 12, 13 or 14 and exactly the length that result and count ask for. It says nothing of
 * the entries: these are the judge's.
 */
uint32_t rinsholupe_form(const uint8_t *report, size_t report_len) RINSHOLUPE_NOT_NULL;

/*
 * The body of a report, as a stretch of the caller's bytes: start x 4294967296 + length.
 * The start is 8 on good form. On bad form start and length are 0.
 */
uint64_t rinsholupe_body(const uint8_t *report, size_t report_len) RINSHOLUPE_NOT_NULL;

/*
 * The judge: 0 to 4 for J0 to J4, or 65536 + n where the chart is refused with n, 2 to 13.
 * A fault of the chart comes before any of the report. The report is the stretch written, not the whole room.
 */
uint32_t rinsholupe_judge(const uint8_t *chart, size_t chart_len, const uint8_t *report,
                          size_t report_len) RINSHOLUPE_NOT_NULL;

/* The number, 0 to 14, in an answer of rinsholupe_test. */
static inline uint32_t rinsholupe_test_number(uint32_t answer) { return answer >> 16; }

/* The bytes written, in an answer of rinsholupe_test. */
static inline size_t rinsholupe_test_written(uint32_t answer) { return answer & 0xFFFF; }

/* Whether an answer of rinsholupe_form says bad form; then it has neither result nor count. */
static inline bool rinsholupe_form_is_bad(uint32_t form) { return form == RINSHOLUPE_BAD_FORM; }

/* The result, 0, 12, 13 or 14, in an answer of rinsholupe_form that isn't bad form. */
static inline uint32_t rinsholupe_form_result(uint32_t form) { return form >> 16; }

/* The number of entries, in an answer of rinsholupe_form that isn't bad form. */
static inline uint32_t rinsholupe_form_count(uint32_t form) { return form & 0xFFFF; }

/* Where the body starts in the report, in an answer of rinsholupe_body. */
static inline size_t rinsholupe_body_start(uint64_t body) { return (size_t)(body >> 32); }

/* The length of the body in bytes, in an answer of rinsholupe_body. */
static inline size_t rinsholupe_body_length(uint64_t body) { return (size_t)(body & UINT32_C(0xFFFFFFFF)); }

/* Whether an answer of rinsholupe_judge refuses the chart; if not, the answer is one of J0 to J4. */
static inline bool rinsholupe_judge_refuses_chart(uint32_t verdict) { return verdict >= 65536; }

/* The number, 2 to 13, in an answer of rinsholupe_judge that refuses the chart. */
static inline uint32_t rinsholupe_judge_refusal(uint32_t verdict) { return verdict - 65536; }

/*
 * Entry i of the body of a report with result 12, 13 or 14: an event for 12 and 14, an arrow for 13. Entries have
 * 16 bits, low byte first; i is less than the count.
 */
static inline uint32_t rinsholupe_entry(const uint8_t *body, size_t i) {
    return body[2 * i] + 256u * body[2 * i + 1];
}

/* The words of a number that the test gives. */
static inline const char *rinsholupe_words(uint32_t number) {
    switch (number) {
    case RINSHOLUPE_DRAWABLE: return "drawable";
    case RINSHOLUPE_SHORT_REPORT: return "short report";
    case RINSHOLUPE_MARK: return "mark";
    case RINSHOLUPE_VERSION: return "version";
    case RINSHOLUPE_COUNTS: return "counts";
    case RINSHOLUPE_LENGTH: return "length";
    case RINSHOLUPE_UNKNOWN_EVENT: return "unknown event";
    case RINSHOLUPE_OWN_ARROW: return "own arrow";
    case RINSHOLUPE_OUTER_DART: return "outer dart";
    case RINSHOLUPE_ORDER: return "order";
    case RINSHOLUPE_PARTED: return "parted";
    case RINSHOLUPE_CROSSING: return "crossing";
    case RINSHOLUPE_MIXED: return "mixed";
    case RINSHOLUPE_CIRCLE: return "circle";
    case RINSHOLUPE_NO_ROOM: return "no room";
    default: return "no such number";
    }
}

/* The words of a verdict that doesn't refuse the chart. */
static inline const char *rinsholupe_verdict_words(uint32_t verdict) {
    switch (verdict) {
    case RINSHOLUPE_J0: return "labels hold";
    case RINSHOLUPE_J1: return "cut holds";
    case RINSHOLUPE_J2: return "bad form, result or count";
    case RINSHOLUPE_J3: return "labels break a condition";
    case RINSHOLUPE_J4: return "no cut";
    default: return "no such verdict";
    }
}

#ifdef __cplusplus
}
#endif

#endif
