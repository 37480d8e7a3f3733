/* A tape from standard input, to standard output:
 *
 *   program               each decision, as document 01 prints it
 *   program why           for each task why its first pending job runs or waits, after all of the tape's calls */
#include "sched.h"
#include "tape.h"

#include <string.h>
#include <unistd.h>

/* A line holds two numbers of up to 19 digits, a result, a task, a kernel call and 32 late tasks; a record has two bytes at least. */
#define LONGEST_LINE 160

static uint8_t input[LONGEST_TAPE + 1];
static char output[(LONGEST_TAPE / 2 + 2) * LONGEST_LINE];

/* ---- parts of a line: each is put at a place, and gives the place behind it */

static char *put(char *to, const char *text) {
    size_t n = strlen(text);
    memcpy(to, text, n);
    return to + n;
}

static char *put_decimal(char *to, uint64_t n) {
    char digits[20];
    size_t i = sizeof digits;
    do {
        digits[--i] = (char)('0' + n % 10);
        n /= 10;
    } while (n > 0);
    memcpy(to, digits + i, sizeof digits - i);
    return to + (sizeof digits - i);
}

static char *put_call(char *to, const struct answer *a) {
    switch (a->call) {
    case ACTIVATE_TASK: *to++ = 'A'; return put_decimal(to, a->called);
    case CHAIN_TASK: *to++ = 'C'; return put_decimal(to, a->called);
    case TERMINATE_TASK: *to++ = 'T'; return to;
    default: *to++ = '-'; return to;
    }
}

/* ---- lines */

static char *put_answer(char *to, uint64_t tick, const struct answer *a) {
    to = put_decimal(to, tick);
    *to++ = ' ';
    to = put_decimal(to, a->result);
    *to++ = ' ';
    if (a->runs) {
        to = put_decimal(to, a->task);
        *to++ = ' ';
        to = put_decimal(to, a->due);
    } else {
        to = put(to, "- -");
    }
    *to++ = ' ';
    to = put_call(to, a);
    *to++ = ' ';
    if (a->late == 0) *to++ = '-';
    for (unsigned i = 0; i < a->late; i++) {
        if (i > 0) *to++ = ',';
        to = put_decimal(to, a->late_tasks[i]);
    }
    *to++ = '\n';
    return to;
}

static char *put_why(char *to, uint8_t task, struct why w) {
    to = put(to, "task ");
    to = put_decimal(to, task);
    if (w.reason == NONE_PENDING) return put(to, " has no pending job\n");
    if (w.reason == IT_RUNS) return put(to, " is running\n");
    to = put(to, " is waiting: task ");
    to = put_decimal(to, w.task);
    to = put(to, w.reason == EARLIER_RUNS ? " is running with the earlier deadline " : " was there first and is running with the same deadline ");
    to = put_decimal(to, w.due);
    *to++ = '\n';
    return to;
}

static char *put_bad_tape(char *to, int number, size_t place) {
    to = put(to, "tape ");
    to = put_decimal(to, (uint64_t)number);
    to = put(to, " at ");
    to = put_decimal(to, place);
    *to++ = '\n';
    return to;
}

static char *put_bad_table(char *to, struct verdict v) {
    to = put(to, "table ");
    to = put_decimal(to, v.number);
    *to++ = ' ';
    to = v.named > 0 ? put_decimal(to, v.first) : put(to, "-");
    *to++ = ' ';
    to = v.named > 1 ? put_decimal(to, v.second) : put(to, "-");
    *to++ = '\n';
    return to;
}

/* ---- a tape */

/* The table is read and checked. Where it isn't accepted that is the one line. */
static char *open_tape(char *to, struct tape t, struct sched *s, size_t *at) {
    struct line lines[PLACES];
    size_t count;
    if (t.length > LONGEST_TAPE) return put_bad_tape(to, 26, LONGEST_TAPE);
    int refusal = read_table(t, at, lines, &count);
    if (refusal != 0) return put_bad_tape(to, refusal, 0);
    struct verdict v = sched_check(s, lines, count);
    return v.number == 0 ? to : put_bad_table(to, v);
}

/* The records are gone through: why they end, if that is not the tape's end. */
static char *put_end(char *to, int refusal, size_t at) {
    return refusal == TAPE_END ? to : put_bad_tape(to, refusal, at);
}

static char *put_decisions(char *to, struct tape t, struct sched *s, size_t at) {
    struct record r = {0};
    int refusal;
    to = put(to, "tick res run due call late\n");
    while ((refusal = read_record(t, &at, r.tick, &r)) == 0) {
        struct answer a;
        make_call(s, &r, &a);
        to = put_answer(to, r.tick, &a);
    }
    return put_end(to, refusal, at);
}

static char *put_reasons(char *to, struct tape t, struct sched *s, size_t at) {
    struct record r = {0};
    int refusal;
    while ((refusal = read_record(t, &at, r.tick, &r)) == 0) {
        struct answer a;
        make_call(s, &r, &a);
    }
    for (uint8_t task = 0; task < s->lines; task++) to = put_why(to, task, sched_why(s, task));
    return put_end(to, refusal, at);
}

int main(int argc, char **argv) {
    bool why = argc == 2 && strcmp(argv[1], "why") == 0;
    size_t length = 0, at;
    ssize_t n;
    while (length < sizeof input && (n = read(STDIN_FILENO, input + length, sizeof input - length)) > 0) length += (size_t)n;
    struct tape t = {input, length};
    struct sched s;
    char *end = open_tape(output, t, &s, &at);
    if (end == output) end = why ? put_reasons(end, t, &s, at) : put_decisions(end, t, &s, at);
    for (const char *from = output; from < end; from += n) {
        n = write(STDOUT_FILENO, from, (size_t)(end - from));
        if (n < 0) return 1;
    }
    return 0;
}
