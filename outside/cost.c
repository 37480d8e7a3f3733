/* What outside/cost counts. Runs under count/icount.c:
 *
 *   cost                  goes through all that is measured; a line for each stretch: its number, sign and turns, and the cost it is part of
 *   cost places           the same of activations alone that go last and first
 *   cost mixed N          a tape of N records, made as the baseline answers
 *   cost repeated N       a tape from standard input, its records N times; the count of its records goes to standard error
 *
 * A cost is the sum of its stretches, each with its sign, less as many empty ones, by its turns. Ends with 1 where the two sides differ. */
#include "../c/head.h"
#include "baseline/gauge.h"
#include "baseline/sched.h"
#include "baseline/tape.h"

#include <stdio.h>
#include <stdlib.h>
#include <string.h>
#include <unistd.h>

/* The bytes of the by-value scheduler's state. */
#define STATE_BYTES 1560

/* ---- stretches: from mark to mark of one number; 0 is for none */

static unsigned stretches, stretch;

static void mark(uint64_t i) {
    uint64_t result;
    __asm__ volatile("syscall" : "=a"(result) : "0"(UINT64_C(4096)), "D"(i) : "rcx", "r11", "memory");
}

#define COUNTED(...) do { mark(stretch); __VA_ARGS__; mark(stretch); } while (0)

/* The next stretch: part of a cost, added or taken off. */
static void next(char sign, unsigned turns, const char *group, const char *what, unsigned size, const char *side) {
    stretch = ++stretches;
    printf("%u %c1 %u %s/%s/%u/%s\n", stretch, sign, turns, group, what, size, side);
}

static void must(bool same, const char *what) {
    if (same) return;
    fprintf(stderr, "cost: the two sides differ: %s\n", what);
    exit(1);
}

/* ---- tapes */

static uint8_t bytes[LONGEST_TAPE];
static size_t length;

static void put(uint64_t value) {
    size_t n;
    if (write_number(value, bytes + length, sizeof bytes - length, &n) != 0) exit(2);
    length += n;
}

static void put_table(const struct line *lines, size_t count) {
    length = 0;
    put(count);
    for (size_t i = 0; i < count; i++) {
        put(lines[i].deadline);
        put(lines[i].priority);
        put(lines[i].limit);
    }
}

static void put_record(uint64_t preceding, struct record r) {
    size_t n;
    if (write_record(preceding, r, bytes + length, sizeof bytes - length, &n) != 0) exit(2);
    length += n;
}

/* ---- the calls that are measured: 32 tasks of limit 1, of which task 0 has the short deadline */

#define SHORT 1000
#define LONG 100000

enum what { ACTIVATE_LAST, ACTIVATE_FIRST, END, CHAIN_LAST, CHAIN_FIRST, MOVE, REFUSED, ALL_LATE, WHATS };
static const char *const what_names[WHATS] = {"activate, goes last", "activate, goes first", "terminate", "chain, goes last", "chain, goes first", "tick", "activate, refused", "tick, all late"};
static const unsigned sizes[] = {1, 2, 4, 8, 16, 24, 32};

static void table(struct line lines[PLACES]) {
    for (unsigned i = 0; i < PLACES; i++) lines[i] = (struct line){i == 0 ? SHORT : LONG, i == 0 ? 2 : 1, 1};
}

/* Jobs of the long deadline, then task 0 so late that it goes last, too. */
static unsigned fill(struct record *calls, unsigned jobs) {
    for (unsigned i = 0; i < jobs; i++) calls[i] = i + 1 < PLACES ? (struct record){0, ACTIVATE, (uint8_t)(i + 1)} : (struct record){LONG - SHORT / 2, ACTIVATE, 0};
    return jobs;
}

/* Task 0 first, the others behind it. */
static unsigned fill_first(struct record *calls, unsigned jobs) {
    for (unsigned i = 0; i < jobs; i++) calls[i] = (struct record){0, ACTIVATE, (uint8_t)i};
    return jobs;
}

/* The calls up to the measured one, which is the last. `jobs` are pending: after an activate, otherwise before the call. */
static unsigned calls_for(enum what w, unsigned jobs, struct record calls[PLACES + 1]) {
    unsigned n;
    switch (w) {
    case ACTIVATE_LAST: return fill(calls, jobs);
    case ACTIVATE_FIRST: n = fill(calls, jobs - 1); break;
    case CHAIN_FIRST: n = fill_first(calls, jobs); break;
    default: n = fill(calls, jobs); break;
    }
    uint64_t now = n > 0 ? calls[n - 1].tick + 1 : 0;
    switch (w) {
    case ACTIVATE_FIRST: calls[n] = (struct record){now, ACTIVATE, 0}; break;
    case END: calls[n] = (struct record){now, TERMINATE, 0}; break;
    case CHAIN_LAST: calls[n] = (struct record){now, CHAIN, 1}; break;
    case CHAIN_FIRST: calls[n] = (struct record){now, CHAIN, 0}; break;
    case REFUSED: calls[n] = (struct record){now, ACTIVATE, 1}; break;
    case ALL_LATE: calls[n] = (struct record){now + 2 * LONG, TICK, 0}; break;
    default: calls[n] = (struct record){now, TICK, 0}; break;
    }
    return n + 1;
}

/* ---- a call by value: a tape with the call's record at its end less the tape without it, calls and records less records alone */

/* What is measured: part of which cost. */
struct part {
    const char *group, *what;
    unsigned size;
};

static void tapes(char sign, struct part p, size_t n, uint64_t (*ours)(const uint8_t *, size_t), uint64_t (*theirs)(const uint8_t *, size_t)) {
    uint64_t x, y;
    next(sign, 1, p.group, p.what, p.size, "ours");
    COUNTED(x = ours(bytes, n));
    next(sign, 1, p.group, p.what, p.size, "C");
    COUNTED(y = theirs(bytes, n));
    must(x == y, p.what);
}

static void by_value(struct part p, const struct line lines[PLACES], const struct record *calls, unsigned n) {
    size_t without = 0;
    uint64_t preceding = 0;
    put_table(lines, PLACES);
    for (unsigned i = 0; i < n; i++) {
        without = length;
        put_record(preceding, calls[i]);
        preceding = calls[i].tick;
    }
    tapes('+', p, length, gauge_calls, base_calls);
    tapes('-', p, without, gauge_calls, base_calls);
    tapes('-', p, length, gauge_records, base_records);
    tapes('+', p, without, gauge_records, base_records);
}

static void call_by_value(enum what w, unsigned jobs) {
    struct line lines[PLACES];
    struct record calls[PLACES + 1];
    table(lines);
    by_value((struct part){"value", what_names[w], jobs}, lines, calls, calls_for(w, jobs, calls));
}

/* ---- a call for C, on a state where it stands */

static struct HeadState head;
static struct sched base;

static void same_answer(const struct HeadAnswer *h, const struct answer *a, const char *what) {
    must(h->result == a->result && h->runs == a->runs && h->task == a->task && h->due.ticks == a->due, what);
    must(h->call == a->call && h->called == a->called && h->late.count == a->late, what);
    must(memcmp(h->late.tasks, a->late_tasks, sizeof a->late_tasks) == 0, what);
}

/* The measured call did what its name says. */
static bool is_meant(enum what w, unsigned jobs, struct record r, const struct answer *a) {
    if (a->result != (w == REFUSED ? 4 : 0) || a->late != (w == ALL_LATE ? jobs : 0) || base.count != (w == END ? jobs - 1 : jobs)) return false;
    if (w == ACTIVATE_LAST || w == CHAIN_LAST) return base.jobs[base.count - 1].task == r.task;
    if (w == ACTIVATE_FIRST || w == CHAIN_FIRST) return base.jobs[0].task == r.task;
    return true;
}

static void call_both(struct record r, enum what w, unsigned jobs, bool counted) {
    struct HeadTick at = {r.tick};
    struct HeadAnswer h;
    struct answer a;
    stretch = 0;
    if (counted) next('+', 1, "place", what_names[w], jobs, "ours");
    switch (r.kind) {
    case TICK: COUNTED(h = head_tick(&head, at)); break;
    case ACTIVATE: COUNTED(h = head_activate(&head, at, r.task)); break;
    case TERMINATE: COUNTED(h = head_terminate(&head, at)); break;
    default: COUNTED(h = head_chain(&head, at, r.task)); break;
    }
    if (counted) next('+', 1, "place", what_names[w], jobs, "C");
    switch (r.kind) {
    case TICK: COUNTED(sched_tick(&base, r.tick, &a)); break;
    case ACTIVATE: COUNTED(sched_activate(&base, r.tick, r.task, &a)); break;
    case TERMINATE: COUNTED(sched_terminate(&base, r.tick, &a)); break;
    default: COUNTED(sched_chain(&base, r.tick, r.task, &a)); break;
    }
    same_answer(&h, &a, what_names[w]);
    if (counted) must(is_meant(w, jobs, r, &a), what_names[w]);
}

/* From the check on. */
static void call_all(const struct record *calls, unsigned n, enum what w, unsigned jobs, bool counted) {
    struct line lines[PLACES];
    struct HeadLine head_lines[PLACES];
    table(lines);
    for (unsigned i = 0; i < PLACES; i++) head_lines[i] = (struct HeadLine){{lines[i].deadline}, lines[i].priority, lines[i].limit};
    struct HeadChecked c = head_check(head_lines, PLACES);
    must(c.verdict.number == 0 && sched_check(&base, lines, PLACES).number == 0, "check");
    head = c.state;
    for (unsigned i = 0; i < n; i++) call_both(calls[i], w, jobs, counted && i + 1 == n);
}

/* Both are asked of every task number, with a line or without. */
static void same_reasons(void) {
    for (unsigned task = 0; task <= UINT8_MAX; task++) {
        struct HeadWhy h = head_why(&head, (uint8_t)task);
        struct why y = sched_why(&base, (uint8_t)task);
        must(h.result == y.result && h.reason == y.reason && h.task == y.task && h.due.ticks == y.due, "why");
    }
}

static void in_place(enum what w, unsigned jobs) {
    struct record calls[PLACES + 1];
    unsigned n = calls_for(w, jobs, calls);
    call_all(calls, n, w, jobs, true);
    same_reasons();
}

/* ---- an activation by value among so many pending jobs: task 0 with the shortest deadline goes first, task 1 with the longest last */

static const unsigned waiting[] = {1, 8, 16, 31};

static void places_table(struct line lines[PLACES]) {
    static const struct line short_line = {SHORT, 3, 1}, long_line = {10 * LONG, 1, 1}, other_line = {LONG, 2, 1};
    for (unsigned i = 0; i < PLACES; i++) lines[i] = i == 0 ? short_line : i == 1 ? long_line : other_line;
}

static void activation(uint8_t task, unsigned jobs) {
    struct line lines[PLACES];
    struct record calls[PLACES];
    struct answer a;
    uint8_t other = task == 1 ? 0 : 1;
    struct part p = {"activate", task == 1 ? "long deadline, goes last" : "short deadline, goes first", jobs};
    places_table(lines);
    for (unsigned i = 0; i < jobs; i++) calls[i] = (struct record){0, ACTIVATE, i + 2 < PLACES ? (uint8_t)(i + 2) : other};
    calls[jobs] = (struct record){1, ACTIVATE, task};
    by_value(p, lines, calls, jobs + 1);
    must(sched_check(&base, lines, PLACES).number == 0, p.what);
    for (unsigned i = 0; i <= jobs; i++) make_call(&base, &calls[i], &a);
    must(a.result == 0 && base.count == jobs + 1 && base.jobs[task == 1 ? jobs : 0].task == task, p.what);
}

static void places(void) {
    for (unsigned task = 2; task-- > 0;) {
        for (unsigned i = 0; i < sizeof waiting / sizeof waiting[0]; i++) activation((uint8_t)task, waiting[i]);
    }
}

/* ---- the question for C, on a state where it stands: why a task's first pending job runs or waits */

enum asked { JOB_FIRST, JOB_LAST, NO_JOB, ASKED };
static const char *const asked_names[ASKED] = {"why, job is first", "why, job is last", "why, none pending"};

/* What the name says: the last job waits for one of its own deadline, and of all 32 for one of an earlier deadline. */
static enum reason reason_meant(enum asked q, unsigned jobs) {
    if (q == NO_JOB) return NONE_PENDING;
    if (q == JOB_FIRST || jobs == 1) return IT_RUNS;
    return jobs < PLACES ? THERE_FIRST : EARLIER_RUNS;
}

/* In a list that each job went last in. Where 32 jobs are pending no task is without one. */
static void why_in_place(enum asked q, unsigned jobs) {
    struct record calls[PLACES];
    struct HeadWhy h;
    struct why y;
    if (q == NO_JOB && jobs == PLACES) return;
    unsigned n = fill(calls, jobs);
    call_all(calls, n, ACTIVATE_LAST, jobs, false);
    uint8_t task = q == JOB_FIRST ? calls[0].task : q == JOB_LAST ? calls[n - 1].task : 0;
    next('+', 1, "place", asked_names[q], jobs, "ours");
    COUNTED(h = head_why(&head, task));
    next('+', 1, "place", asked_names[q], jobs, "C");
    COUNTED(y = sched_why(&base, task));
    must(h.reason == reason_meant(q, jobs) && y.reason == h.reason, asked_names[q]);
    same_reasons();
}

/* ---- a number on tape: so many numbers, and twice as many */

#define NUMBERS 32

static void read_both(char sign, const char *what, unsigned groups, size_t n) {
    uint64_t x, y;
    next(sign, NUMBERS, "number", what, groups, "ours");
    COUNTED(x = gauge_numbers(bytes, n));
    next(sign, NUMBERS, "number", what, groups, "C");
    COUNTED(y = base_numbers(bytes, n));
    must(x == y, what);
}

static void write_both(char sign, const char *what, unsigned groups, size_t n) {
    uint8_t buf[16];
    uint64_t x, y;
    next(sign, NUMBERS, "number", what, groups, "ours");
    COUNTED(x = gauge_written(bytes, n, buf, sizeof buf));
    next(sign, NUMBERS, "number", what, groups, "C");
    COUNTED(y = base_written(bytes, n, buf, sizeof buf));
    must(x == y, what);
}

static void numbers(unsigned groups) {
    length = 0;
    for (unsigned i = 0; i < 2 * NUMBERS; i++) put((UINT64_C(1) << (7 * groups - 1)) + i);
    read_both('+', "read", groups, length);
    read_both('-', "read", groups, length / 2);
    write_both('+', "written", groups, length);
    write_both('-', "written", groups, length / 2);
    read_both('-', "written", groups, length);
    read_both('+', "written", groups, length / 2);
}

/* ---- the limit of the by-value form: the state copied in, and out */

static void copies(void) {
    static _Alignas(16) uint8_t there[STATE_BYTES], back[STATE_BYTES];
    volatile size_t size = STATE_BYTES; /* so that memcpy is called */
    next('+', 1, "copies", "two memcpy", STATE_BYTES, "ours");
    COUNTED(memcpy(there, bytes, size); memcpy(back, there, size));
    if (back[0] != bytes[0]) exit(2);
}

/* ---- tapes for the program */

static void send(void) {
    if (write(STDOUT_FILENO, bytes, length) != (ssize_t)length) exit(2);
}

static uint32_t draw(uint32_t below) {
    static uint32_t state = 1;
    state = state * 1664525 + 1013904223;
    return (uint32_t)((uint64_t)state * below >> 32);
}

/* A recorder that is at times too busy. Of the calls that would be refused one of eight is made. */
static void mixed(unsigned records) {
    static const struct line lines[] = {{40, 90, 3}, {40, 90, 3}, {100, 80, 3}, {100, 80, 3}, {250, 70, 2}, {250, 70, 2}, {2000, 20, 4}, {5000, 10, 4}};
    const unsigned count = sizeof lines / sizeof lines[0];
    uint64_t now = 0;
    if (sched_check(&base, lines, count).number != 0) exit(2);
    put_table(lines, count);
    for (unsigned made = 0; made < records;) {
        struct sched before = base;
        struct answer a;
        struct record r = {now + draw(base.count > 6 ? 16 : 48), 0, 0};
        uint32_t die = draw(16);
        r.kind = die < 7 ? ACTIVATE : die < 12 ? TERMINATE : die < 14 ? CHAIN : TICK;
        if (r.kind == ACTIVATE || r.kind == CHAIN) r.task = (uint8_t)draw(count);
        make_call(&base, &r, &a);
        if (a.result != 0 && draw(8) != 0) {
            base = before;
            continue;
        }
        put_record(now, r);
        now = r.tick;
        made++;
    }
    send();
}

static void repeated(unsigned times) {
    static uint8_t input[LONGEST_TAPE];
    struct tape t = {input, fread(input, 1, sizeof input, stdin)};
    struct line lines[PLACES];
    struct record r = {0};
    size_t count, first, at;
    unsigned records = 0;
    if (read_table(t, &first, lines, &count) != 0) exit(2);
    for (at = first; read_record(t, &at, r.tick, &r) == 0;) records++;
    length = first + times * (at - first);
    if (length > sizeof bytes) exit(2);
    memcpy(bytes, input, first);
    for (unsigned i = 0; i < times; i++) memcpy(bytes + first + i * (at - first), input + first, at - first);
    fprintf(stderr, "%u\n", times * records);
    send();
}

int main(int argc, char **argv) {
    if (argc == 3 && strcmp(argv[1], "mixed") == 0) return mixed((unsigned)atoi(argv[2])), 0;
    if (argc == 3 && strcmp(argv[1], "repeated") == 0) return repeated((unsigned)atoi(argv[2])), 0;
    next('+', 1, "empty", "stretch", 0, "ours");
    COUNTED();
    places();
    if (argc == 2 && strcmp(argv[1], "places") == 0) return 0;
    for (unsigned w = 0; w < WHATS; w++) {
        for (unsigned i = 0; i < sizeof sizes / sizeof sizes[0]; i++) {
            call_by_value(w, sizes[i]);
            in_place(w, sizes[i]);
        }
    }
    for (unsigned q = 0; q < ASKED; q++) {
        for (unsigned i = 0; i < sizeof sizes / sizeof sizes[0]; i++) why_in_place(q, sizes[i]);
    }
    numbers(1);
    numbers(2);
    numbers(5);
    numbers(9);
    copies();
    return 0;
}
