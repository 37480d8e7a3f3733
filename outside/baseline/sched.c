#include "sched.h"

#include <string.h>

/* ---- the check */

static struct verdict check(const struct line *lines, size_t count) {
    if (count < 1 || count > PLACES) return (struct verdict){.number = 1};
    unsigned limits = 0;
    for (size_t i = 0; i < count; i++) {
        if (lines[i].deadline < 1 || lines[i].deadline > GREATEST_DEADLINE) return (struct verdict){2, 1, (uint8_t)i, 0};
        if (lines[i].limit < 1 || lines[i].limit > PLACES) return (struct verdict){3, 1, (uint8_t)i, 0};
        limits += lines[i].limit;
    }
    if (limits > PLACES) return (struct verdict){.number = 4};
    for (size_t i = 0; i < count; i++) {
        for (size_t j = i + 1; j < count; j++) {
            const struct line *x = &lines[i], *y = &lines[j];
            if ((x->deadline < y->deadline && x->priority <= y->priority) || (y->deadline < x->deadline && y->priority <= x->priority))
                return (struct verdict){5, 2, (uint8_t)i, (uint8_t)j};
        }
    }
    return (struct verdict){.number = 0};
}

struct verdict sched_check(struct sched *s, const struct line *lines, size_t count) {
    struct verdict v = check(lines, count);
    memset(s, 0, sizeof *s);
    if (v.number != 0) return v;
    s->lines = (uint8_t)count;
    for (size_t i = 0; i < count; i++) {
        s->tasks[i].deadline = (uint32_t)lines[i].deadline;
        s->tasks[i].limit = lines[i].limit;
    }
    return v;
}

/* ---- the parts of a call */

static bool bad_tick(const struct sched *s, uint64_t at) {
    return at < s->last || at > GREATEST_TICK;
}

static uint32_t plus_one(uint32_t n) {
    return n == UINT32_MAX ? n : n + 1;
}

/* The first job runs. */
static void running(const struct sched *s, struct answer *a) {
    if (s->count == 0) return;
    a->runs = true;
    a->task = s->jobs[0].task;
    a->due = s->jobs[0].due;
}

/* The call is refused; nothing changes. */
static void refuse(const struct sched *s, uint8_t number, struct answer *a) {
    a->result = number;
    running(s, a);
}

/* The call is accepted: time moves, and jobs that are newly late are reported. They stand behind those reported before. */
static void move(struct sched *s, uint64_t at, struct answer *a) {
    size_t i = s->reported, count = s->count, n = 0;
    s->last = at;
    for (; i < count && s->jobs[i].due <= at; i++) {
        uint8_t task = s->jobs[i].task;
        s->tasks[task].late = plus_one(s->tasks[task].late);
        a->late_tasks[n++] = task;
    }
    s->reported = (uint8_t)i;
    a->late = (uint8_t)n;
}

/* The first job ends: it is counted, and the list still holds it. */
static void end_first(struct sched *s, uint64_t at) {
    struct task *t = &s->tasks[s->jobs[0].task];
    uint64_t response = at - (s->jobs[0].due - t->deadline);
    if (response > t->response) t->response = response;
    t->ended = plus_one(t->ended);
    t->pending--;
    if (s->reported > 0) s->reported--;
}

/* The place behind all jobs that are due no later. */
static size_t place_of(const struct sched *s, uint64_t due) {
    size_t i = s->count;
    while (i > 0 && s->jobs[i - 1].due > due) i--;
    return i;
}

/* The first job is released by ChainTask if it is delayed; otherwise TerminateTask. */
static void settle(struct sched *s, struct answer *a) {
    if (s->count > 0 && !s->jobs[0].released) {
        s->jobs[0].released = true;
        a->call = CHAIN_TASK;
        a->called = s->jobs[0].task;
    } else {
        a->call = TERMINATE_TASK;
    }
    running(s, a);
}

/* ---- the calls */

void sched_tick(struct sched *s, uint64_t at, struct answer *a) {
    *a = (struct answer){0};
    if (bad_tick(s, at)) return refuse(s, 8, a);
    move(s, at, a);
    running(s, a);
}

void sched_activate(struct sched *s, uint64_t at, uint8_t task, struct answer *a) {
    *a = (struct answer){0};
    if (bad_tick(s, at)) return refuse(s, 8, a);
    if (task >= s->lines) return refuse(s, 3, a);
    struct task *t = &s->tasks[task];
    if (t->pending >= t->limit) return refuse(s, 4, a);
    if (s->count >= PLACES) return refuse(s, 10, a);
    uint64_t due = at + t->deadline;
    if (due > GREATEST_TICK) return refuse(s, 9, a);
    move(s, at, a);

    /* the new job walks in from the back: those that are due later go one place back */
    size_t i = s->count;
    for (; i > 0 && s->jobs[i - 1].due > due; i--) s->jobs[i] = s->jobs[i - 1];
    s->jobs[i] = (struct job){due, task, i == 0};
    s->count++;
    t->pending++;
    if (i == 0) {
        a->call = ACTIVATE_TASK;
        a->called = task;
    }
    running(s, a);
}

void sched_terminate(struct sched *s, uint64_t at, struct answer *a) {
    *a = (struct answer){0};
    if (bad_tick(s, at)) return refuse(s, 8, a);
    if (s->count == 0) return refuse(s, 2, a);
    move(s, at, a);

    end_first(s, at);
    s->count--;
    memmove(&s->jobs[0], &s->jobs[1], s->count * sizeof s->jobs[0]);
    settle(s, a);
}

void sched_chain(struct sched *s, uint64_t at, uint8_t task, struct answer *a) {
    *a = (struct answer){0};
    if (bad_tick(s, at)) return refuse(s, 8, a);
    if (s->count == 0) return refuse(s, 2, a);
    if (task >= s->lines) return refuse(s, 3, a);
    struct task *t = &s->tasks[task];
    if (t->pending - (s->jobs[0].task == task) >= t->limit) return refuse(s, 4, a);
    uint64_t due = at + t->deadline;
    if (due > GREATEST_TICK) return refuse(s, 9, a);
    move(s, at, a);

    /* the jobs that are due no later move into the place of the one that ends */
    end_first(s, at);
    size_t i = place_of(s, due);
    if (i > 0) i--;
    memmove(&s->jobs[0], &s->jobs[1], i * sizeof s->jobs[0]);
    s->jobs[i] = (struct job){due, task, false};
    t->pending++;
    settle(s, a);
}

/* ---- the question */

/* A task that has a pending job has one in the list, so the search needs no end. */
struct why sched_why(const struct sched *s, uint8_t task) {
    if (task >= s->lines) return (struct why){.result = 3};
    if (s->tasks[task].pending == 0) return (struct why){.reason = NONE_PENDING};
    const struct job *first = s->jobs, *job = first;
    while (job->task != task) job++;
    if (job == first) return (struct why){.reason = IT_RUNS};
    return (struct why){first->due, 0, first->due < job->due ? EARLIER_RUNS : THERE_FIRST, first->task};
}
