/* The run of document 01 through the calls for C, printed as document 01 prints it; calls that are refused, each of
 * which leaves the state as it was; a chain; why tasks run or wait; tables that are refused. Freestanding, for x86-64
 * Linux. */
#include "head.h"

/* ---- what stands in for a C library */

static char text[4096];
static size_t used;

static void put(char c) {
    if (used < sizeof text) text[used++] = c;
}

static void put_text(const char *s) {
    while (*s) put(*s++);
}

static void put_number(uint64_t n) {
    if (n >= 10) put_number(n / 10);
    put((char)('0' + n % 10));
}

static long ask(long call, long a, long b, long c) {
    long r;
    __asm__ volatile("syscall" : "=a"(r) : "a"(call), "D"(a), "S"(b), "d"(c) : "rcx", "r11", "memory");
    return r;
}

void *memcpy(void *to, const void *from, size_t n) {
    uint8_t *a = to;
    const uint8_t *b = from;
    for (size_t i = 0; i < n; i++) {
        a[i] = b[i];
        __asm__ volatile("" ::: "memory");
    }
    return to;
}

void *memmove(void *to, const void *from, size_t n) {
    uint8_t *a = to;
    const uint8_t *b = from;
    if ((uintptr_t)a < (uintptr_t)b) return memcpy(to, from, n);
    for (size_t i = n; i > 0; i--) {
        a[i - 1] = b[i - 1];
        __asm__ volatile("" ::: "memory");
    }
    return to;
}

void *memset(void *to, int c, size_t n) {
    uint8_t *a = to;
    for (size_t i = 0; i < n; i++) {
        a[i] = (uint8_t)c;
        __asm__ volatile("" ::: "memory");
    }
    return to;
}

/* ---- the print of document 01 */

static void put_called(char kind, uint8_t task) {
    put(kind);
    put_number(task);
}

static void put_line(uint64_t tick, struct HeadAnswer a) {
    put_number(tick);
    put(' ');
    put_number(a.result);
    put(' ');
    if (a.runs) {
        put_number(a.task);
        put(' ');
        put_number(a.due.ticks);
    } else {
        put_text("- -");
    }
    put(' ');
    switch (a.call) {
    case HEAD_ACTIVATE_TASK: put_called('A', a.called); break;
    case HEAD_CHAIN_TASK: put_called('C', a.called); break;
    case HEAD_TERMINATE_TASK: put('T'); break;
    default: put('-');
    }
    put(' ');
    if (a.late.count == 0) put('-');
    for (uint8_t i = 0; i < a.late.count; i++) {
        if (i > 0) put(',');
        put_number(a.late.tasks[i]);
    }
    put('\n');
}

/* ---- why a task's first pending job runs or waits */

static void put_why(uint8_t task, struct HeadWhy w) {
    put_text("task ");
    put_number(task);
    switch (w.reason) {
    case HEAD_NONE_PENDING: put_text(" has no pending job\n"); return;
    case HEAD_IT_RUNS: put_text(" is running\n"); return;
    case HEAD_NO_REASON:
        put_text(" is refused: ");
        put_number(w.result);
        put('\n');
        return;
    default: put_text(" is waiting: task ");
    }
    put_number(w.task);
    put_text(w.reason == HEAD_EARLIER ? " is running with the earlier deadline " : " was there first and is running with the same deadline ");
    put_number(w.due.ticks);
    put('\n');
}

/* ---- the state, field by field */

static bool same_table(const struct HeadTable *x, const struct HeadTable *y) {
    for (int i = 0; i < HEAD_PLACES; i++) {
        const struct HeadLine *a = &x->lines[i], *b = &y->lines[i];
        if (a->deadline.ticks != b->deadline.ticks || a->priority != b->priority || a->limit != b->limit) return false;
    }
    return x->count == y->count;
}

static bool same_jobs(const struct HeadJob *x, const struct HeadJob *y) {
    for (int i = 0; i < HEAD_PLACES; i++)
        if (x[i].due.ticks != y[i].due.ticks || x[i].task != y[i].task || x[i].released != y[i].released) return false;
    return true;
}

static bool same_tallies(const struct HeadMonitor *x, const struct HeadMonitor *y) {
    for (int i = 0; i < HEAD_PLACES; i++) {
        const struct HeadTally *a = &x->tallies[i], *b = &y->tallies[i];
        if (a->late != b->late || a->ended != b->ended || a->response != b->response) return false;
    }
    return true;
}

static bool same(const struct HeadState *x, const struct HeadState *y) {
    return same_table(&x->table, &y->table) && x->last.ticks == y->last.ticks && same_jobs(x->jobs, y->jobs) && x->count == y->count && same_tallies(&x->monitor, &y->monitor);
}

/* ---- the calls */

static struct HeadState s;

static void tick(uint64_t t) { put_line(t, head_tick(&s, (struct HeadTick){t})); }
static void activate(uint64_t t, uint8_t task) { put_line(t, head_activate(&s, (struct HeadTick){t}, task)); }
static void terminate(uint64_t t) { put_line(t, head_terminate(&s, (struct HeadTick){t})); }
static void chain(uint64_t t, uint8_t task) { put_line(t, head_chain(&s, (struct HeadTick){t}, task)); }
static void why(uint8_t task) { put_why(task, head_why(&s, task)); }

/* the table P */
static const struct HeadLine P[3] = {
    {.deadline = {3}, .priority = 12, .limit = 2},
    {.deadline = {5}, .priority = 11, .limit = 2},
    {.deadline = {5}, .priority = 10, .limit = 2},
};

/* lines 0 and 1 break the priority rule; a line too many; a limit out of range */
static const struct HeadLine broken[2] = {
    {.deadline = {3}, .priority = 1, .limit = 1},
    {.deadline = {5}, .priority = 2, .limit = 1},
};
static const struct HeadLine many[33];
static const struct HeadLine limitless[1] = {{.deadline = {3}, .priority = 1, .limit = 0}};

/* The check; a refused table is printed as document 01 prints it. */
static bool checked(const struct HeadLine *lines, size_t count) {
    struct HeadChecked c = head_check(lines, count);
    if (c.verdict.number == 0) {
        s = c.state;
        return true;
    }
    put_text("table ");
    put_number(c.verdict.number);
    put(' ');
    if (c.verdict.named > 0) put_number(c.verdict.first); else put('-');
    put(' ');
    if (c.verdict.named > 1) put_number(c.verdict.second); else put('-');
    put('\n');
    return false;
}

/* What the state holds: the last accepted tick; each job's task, deadline and whether it is released; each task's late and ended jobs and greatest response. */
static void put_state(void) {
    put_text("last ");
    put_number(s.last.ticks);
    if (s.count == 0) put_text("; -");
    for (size_t i = 0; i < s.count; i++) {
        put_text(i == 0 ? "; " : ", ");
        put_number(s.jobs[i].task);
        put(' ');
        put_number(s.jobs[i].due.ticks);
        put_text(s.jobs[i].released ? " released" : " delayed");
    }
    for (size_t i = 0; i < s.table.count; i++) {
        put_text(i == 0 ? "; " : ", ");
        put_number(s.monitor.tallies[i].late);
        put(' ');
        put_number(s.monitor.tallies[i].ended);
        put(' ');
        put_number(s.monitor.tallies[i].response);
    }
    put('\n');
}

static void run(void) {
    if (!checked(P, 3)) return;
    put_text("tick res run due call late\n");
    activate(0, 0);
    activate(0, 2);
    activate(0, 1);
    terminate(1);
    activate(3, 0);
    terminate(3);
    terminate(4);
    tick(7);
    terminate(8);
    put_state();
}

/* Table P again: a chain that is accepted, and what is pending behind it. */
static void chains(void) {
    put_text("chained\n");
    if (!checked(P, 3)) return;
    activate(0, 1);
    activate(1, 0);
    activate(1, 2);
    chain(3, 0);
    put_state();
}

/* Table P again: task 0 has no job, task 1 runs, task 2 waits for the same deadline, and there is no task 3; then task 1
 * waits for an earlier deadline. The state is compared after the questions. */
static void questions(void) {
    put_text("asked\n");
    if (!checked(P, 3)) return;
    activate(0, 1);
    activate(0, 2);
    struct HeadState before = s;
    why(0);
    why(1);
    why(2);
    why(3);
    bool unchanged = same(&before, &s);

    activate(1, 0);
    before = s;
    why(1);
    unchanged &= same(&before, &s);
    put_text(unchanged ? "state unchanged\n" : "state CHANGED\n");
}

/* Each line below is of a refused call; the state is compared after each. */
static void refusals(void) {
    put_text("refused\n");
    struct HeadState before = s;
    bool unchanged = true;
    terminate(9);
    unchanged &= same(&before, &s);
    chain(9, 1);
    unchanged &= same(&before, &s);

    head_activate(&s, (struct HeadTick){10}, 1);
    head_activate(&s, (struct HeadTick){10}, 1);
    before = s;
    tick(9);
    unchanged &= same(&before, &s);
    activate(11, 1);
    unchanged &= same(&before, &s);
    activate(11, 3);
    unchanged &= same(&before, &s);
    chain(11, 3);
    unchanged &= same(&before, &s);
    activate(HEAD_GREATEST_TICK, 0);
    unchanged &= same(&before, &s);
    tick(HEAD_GREATEST_TICK + 1);
    unchanged &= same(&before, &s);
    put_text(unchanged ? "state unchanged\n" : "state CHANGED\n");
}

static void tables(void) {
    checked(many, 33);
    checked(broken, 2);
    checked(limitless, 1);
    checked(P, 0);
}

__attribute__((noreturn, used)) static void begin(void) {
    run();
    refusals();
    chains();
    questions();
    tables();
    ask(1, 1, (long)text, (long)used);
    ask(60, 0, 0, 0);
    __builtin_unreachable();
}

__asm__(".globl _start\n_start: xor %ebp, %ebp\n and $-16, %rsp\n call begin\n");
