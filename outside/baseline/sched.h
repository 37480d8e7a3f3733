/* The scheduler of document 01 in plain C: one state, changed in place. */
#ifndef SCHED_H
#define SCHED_H

#include <stdbool.h>
#include <stddef.h>
#include <stdint.h>

#define PLACES 32
#define GREATEST_TICK UINT64_C(4611686018427387903)
#define GREATEST_DEADLINE 1000000000

/* A line of the task table as it is given. Its place from 0 is its task number. */
struct line {
    uint64_t deadline; /* relative */
    uint8_t priority;
    uint8_t limit;
};

/* A task: its line, its pending jobs, and what is counted. The priority is for the check only. */
struct task {
    uint64_t response; /* the greatest: ending tick less activation tick */
    uint32_t deadline; /* relative */
    uint32_t late;
    uint32_t ended;
    uint8_t limit;
    uint8_t pending;
};

/* A pending job. */
struct job {
    uint64_t due;
    uint8_t task;
    bool released; /* otherwise delayed */
};

/* The state of a recorder head. */
struct sched {
    uint64_t last;             /* the last accepted call's tick */
    uint8_t lines;             /* of the table */
    uint8_t count;             /* of jobs */
    uint8_t reported;          /* so many jobs, the first of the list, were reported late */
    struct job jobs[PLACES];   /* by deadline, equal ones as they came; the first runs */
    struct task tasks[PLACES]; /* by task number */
};

/* What the check answers: its number, and the lines named. */
struct verdict {
    uint8_t number;
    uint8_t named; /* how many */
    uint8_t first;
    uint8_t second;
};

enum kernel_call { NO_CALL, ACTIVATE_TASK, CHAIN_TASK, TERMINATE_TASK };

/* What a call returns. Of what is absent the fields are 0. */
struct answer {
    uint64_t due; /* of the running job */
    uint8_t result;
    bool runs;
    uint8_t task;
    uint8_t call; /* enum kernel_call */
    uint8_t called;
    uint8_t late; /* how many */
    uint8_t late_tasks[PLACES];
};

enum reason { NO_REASON, NONE_PENDING, IT_RUNS, EARLIER_RUNS, THERE_FIRST };

/* Why a task's first pending job runs or waits. Of what is absent the fields are 0. */
struct why {
    uint64_t due; /* of the running job, where the task waits for it */
    uint8_t result;
    uint8_t reason; /* enum reason */
    uint8_t task;
};

/* The check. A fresh state is handed out where the number is 0; otherwise an empty one of no lines. */
struct verdict sched_check(struct sched *s, const struct line *lines, size_t count);

void sched_tick(struct sched *s, uint64_t at, struct answer *a);
void sched_activate(struct sched *s, uint64_t at, uint8_t task, struct answer *a);
void sched_terminate(struct sched *s, uint64_t at, struct answer *a);
void sched_chain(struct sched *s, uint64_t at, uint8_t task, struct answer *a);

/* The question: no tick, and nothing changes. */
struct why sched_why(const struct sched *s, uint8_t task);

#endif
