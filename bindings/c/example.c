/*
 * example [CHART]: tests the chart in the file CHART, or on standard input, and lets the judge read the report.
 *
 * It prints the number and its words, the evidence of the report (the large corners of a labelling, the mixed event,
 * the arrows of a circle, the events of a cut), and the verdict. The exit status is 0 if there was a chart to test.
 */
#include "rinsholupe.h"

#include <errno.h>
#include <stdio.h>
#include <stdlib.h>
#include <string.h>

/* The bytes of a chart, with room for one byte too many: so a chart that is too long shows. */
struct chart {
    uint8_t bytes[RINSHOLUPE_CHART_LIMIT + 1];
    size_t len;
};

/* Fills the chart from a file, or says what is wrong. */
static bool read_chart(struct chart *chart, FILE *file, const char *name) {
    chart->len = fread(chart->bytes, 1, sizeof chart->bytes, file);
    if (ferror(file)) {
        fprintf(stderr, "example: can't read %s: %s\n", name, strerror(errno));
        return false;
    }
    if (chart->len > RINSHOLUPE_CHART_LIMIT) {
        fprintf(stderr, "example: %s is too long: a chart has at most %d bytes\n", name, RINSHOLUPE_CHART_LIMIT);
        return false;
    }
    return true;
}

static bool open_chart(struct chart *chart, const char *name) {
    FILE *file = fopen(name, "rb");
    if (file == NULL) {
        fprintf(stderr, "example: can't open %s: %s\n", name, strerror(errno));
        return false;
    }
    bool read = read_chart(chart, file, name);
    fclose(file);
    return read;
}

/* One line for each large corner or for each entry. On bad form, as that of the empty stretch, there is no line. */
static void print_evidence(const uint8_t *report, size_t written) {
    uint32_t form = rinsholupe_form(report, written);
    if (rinsholupe_form_is_bad(form)) {
        return;
    }
    uint32_t result = rinsholupe_form_result(form);
    const uint8_t *body = report + rinsholupe_body_start(rinsholupe_body(report, written));
    for (uint32_t i = 0; i < rinsholupe_form_count(form); i++) {
        if (result != RINSHOLUPE_DRAWABLE) {
            printf("%s %u\n", result == RINSHOLUPE_CIRCLE ? "arrow" : "event", (unsigned)rinsholupe_entry(body, i));
        } else if (body[i] == RINSHOLUPE_LARGE) {
            printf("large corner %u\n", (unsigned)i);
        }
    }
}

static void print_verdict(uint32_t verdict) {
    if (rinsholupe_judge_refuses_chart(verdict)) {
        uint32_t number = rinsholupe_judge_refusal(verdict);
        printf("verdict chart %u %s\n", (unsigned)number, rinsholupe_words(number));
    } else {
        printf("verdict J%u %s\n", (unsigned)verdict, rinsholupe_verdict_words(verdict));
    }
}

int main(int argc, char **argv) {
    struct chart chart;
    uint8_t report[RINSHOLUPE_REPORT_ROOM] = {0};

    if (argc > 2) {
        fprintf(stderr, "usage: example [CHART]\n");
        return EXIT_FAILURE;
    }
    if (!(argc == 2 ? open_chart(&chart, argv[1]) : read_chart(&chart, stdin, "standard input"))) {
        return EXIT_FAILURE;
    }

    uint32_t answer = rinsholupe_test(chart.bytes, chart.len, report, sizeof report);
    uint32_t number = rinsholupe_test_number(answer);
    size_t written = rinsholupe_test_written(answer);
    printf("result %u %s\n", (unsigned)number, rinsholupe_words(number));
    print_evidence(report, written);
    print_verdict(rinsholupe_judge(chart.bytes, chart.len, report, written));

    if (fflush(stdout) != 0 || ferror(stdout)) {
        fprintf(stderr, "example: can't write: %s\n", strerror(errno));
        return EXIT_FAILURE;
    }
    return EXIT_SUCCESS;
}
