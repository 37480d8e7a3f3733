/* The scheduler of one recorder head, for C on x86-64: crate `head`, built by `rt lib` in its folder.
 *
 * In this order:
 *   head_check        once, with the task table. Number 0: the state that it gives is handed out.
 *   head_tick, head_activate, head_terminate, head_chain
 *                     with that state, which they update where it stands. After each the caller makes the
 *                     kernel call that the answer names, before any other call on this state: the library
 *                     makes none. head_terminate and head_chain are called in the job that runs, at its
 *                     end: TerminateTask and ChainTask end the task that calls them. A task number is a
 *                     line's place in the table; which task of the kernel that is, the caller knows.
 *   head_why          with that state, between these: why a task's first pending job runs or waits. It takes no
 *                     tick, names no kernel call and leaves the state as it is.
 *
 * A call asks for one thing: the state was handed out by head_check with number 0, and nothing but these calls
 * has changed it since. Of any other state nothing is promised, not even that a call stays within it. Go on from
 * what the last call left: an older copy, put back, is out of step with the kernel. Any tick and any task number
 * will do. What each call answers and leaves is proved (crates/head/specs); a refused call leaves every field as
 * it was. Between calls the state may be read: `monitor.tallies[task]` has what is counted. Padding has no
 * meaning, and a call may change it: compare states field by field.
 *
 * A state goes with a kernel: what runs is what the kernel runs if all that it runs are jobs of this state. Tasks
 * of several heads that share a processor are lines of one table.
 *
 * Pointers are not null, are aligned, and point to whole structs: `lines` to `count` of them. Calls on one state
 * go one after the other. The library has no memory of its own but the stack, of which a call takes some 8 KB
 * (measured, not proved), and calls memcpy, memmove and memset.
 */
#ifndef HEAD_H
#define HEAD_H

#include <stdbool.h>
#include <stddef.h>
#include <stdint.h>

#ifdef __cplusplus
extern "C" {
#endif

/* How many lines a table holds, how many jobs a list, how many late tasks an answer, how many tallies a state. */
#define HEAD_PLACES 32

/* A position in time, and a length of time. */
struct HeadTick {
    uint64_t ticks;
};

struct HeadSpan {
    uint64_t ticks;
};

/* A line of the task table. Its place from 0 is its task number. */
struct HeadLine {
    struct HeadSpan deadline; /* relative, 1 to 1,000,000,000 */
    uint8_t priority;         /* 0 is the lowest */
    uint8_t limit;            /* pending jobs of the task, 1 to 32 */
};

/* The lines, and how many there are; places past them are 0. */
struct HeadTable {
    struct HeadLine lines[HEAD_PLACES];
    size_t count;
};

/* A pending job. */
struct HeadJob {
    struct HeadTick due;
    uint8_t task;
    bool released; /* the kernel has it; otherwise it is delayed */
};

/* What is counted of a task. The two counts stand still at 4,294,967,295. */
struct HeadTally {
    uint32_t late;
    uint32_t ended;
    uint64_t response; /* the greatest: ending tick less activation tick */
};

/* A tally for each task number. */
struct HeadMonitor {
    struct HeadTally tallies[HEAD_PLACES];
};

/* The scheduler state of a recorder head. */
struct HeadState {
    struct HeadTable table;
    struct HeadTick last;             /* the last accepted call's tick */
    struct HeadJob jobs[HEAD_PLACES]; /* by deadline, earliest first; places past the count are 0 */
    size_t count;
    struct HeadMonitor monitor;
};

/* Newly late jobs: their count, and their tasks in list order; unused places are 0. A job is late from its deadline tick on. */
struct HeadLate {
    uint8_t count;
    uint8_t tasks[HEAD_PLACES];
};

/* HeadAnswer.call */
enum {
    HEAD_NO_CALL = 0,
    HEAD_ACTIVATE_TASK = 1,
    HEAD_CHAIN_TASK = 2,
    HEAD_TERMINATE_TASK = 3,
};

/* What a call returns. */
struct HeadAnswer {
    uint8_t result;      /* one of the numbers below */
    bool runs;           /* whether a job runs after the call */
    uint8_t task;        /* its task, or 0 */
    struct HeadTick due; /* its deadline, or 0 */
    uint8_t call;        /* the kernel call to make now */
    uint8_t called;      /* the task that it names (ActivateTask, ChainTask), or 0 */
    struct HeadLate late;
};

/* HeadAnswer.result. The order is the order of checks; 0 otherwise.
 *
 *  No. | given exactly when                                                | calls
 *  ----+-------------------------------------------------------------------+-------------------
 *    8 | tick below the last accepted call's, or above the greatest tick   | all
 *    2 | nothing runs                                                      | terminate, chain
 *    3 | task number has no line                                           | activate, chain
 *    4 | the task already has its limit of pending jobs; for chain the     | activate, chain
 *      | ending job isn't counted                                          |
 *   10 | 32 jobs pending                                                   | activate
 *    9 | tick + relative deadline above the greatest tick                  | activate, chain
 *
 * A refused call (result not 0) leaves every field of the state as it was. It reports the unchanged running
 * job, no kernel call and no late job.
 */
enum {
    HEAD_OK = 0,
    HEAD_E_OS_CALLEVEL = 2,
    HEAD_E_OS_ID = 3,
    HEAD_E_OS_LIMIT = 4,
    HEAD_E_OS_VALUE = 8,
    HEAD_OUT_OF_REACH = 9,
    HEAD_NO_ROOM = 10,
};

/* 2 to the 62nd, less 1. */
#define HEAD_GREATEST_TICK UINT64_C(4611686018427387903)

/* What the check answers. */
struct HeadVerdict {
    uint8_t number; /* one of the numbers below */
    uint8_t named;  /* how many lines are named: 0, 1 or 2 */
    uint8_t first;  /* the line, or the lower of both, or 0 */
    uint8_t second; /* the higher of both, or 0 */
};

/* HeadVerdict.number. 2 and 3 go line by line from line 0, the deadline before the limit; 0 otherwise.
 *
 *  No. | given exactly when                                   | lines named
 *  ----+------------------------------------------------------+------------------------
 *    1 | no line, or more than 32                             | none
 *    2 | a relative deadline out of range                     | the line
 *    3 | a limit out of range                                 | the line
 *    4 | limits add up to more than 32                        | none
 *    5 | a pair of lines where the shorter relative deadline  | both: the first such
 *      | lacks the strictly higher priority                   | pair, lowest lines first
 */
struct HeadChecked {
    struct HeadState state; /* fresh where the number is 0; otherwise of no lines, and not handed out */
    struct HeadVerdict verdict;
};

/* HeadWhy.reason. The first pending job is the first in list order. Where the result is 0 exactly one of 1 to 4
 * fits.
 *
 *  No. | given exactly when                                                | task and due
 *  ----+-------------------------------------------------------------------+-------------------
 *    0 | the question is refused                                           | 0
 *    1 | the task has no pending job                                       | 0
 *    2 | its first pending job runs                                        | 0
 *    3 | it waits: the running job has an earlier deadline                 | the running job's
 *    4 | it waits: the running job has the same deadline and was there     | the running job's
 *      | first                                                             |
 */
enum {
    HEAD_NO_REASON = 0,
    HEAD_NONE_PENDING = 1,
    HEAD_IT_RUNS = 2,
    HEAD_EARLIER = 3,
    HEAD_THERE_FIRST = 4,
};

/* Why a task's first pending job runs or waits. */
struct HeadWhy {
    uint8_t result;      /* 3 where the task number has no line; 0 otherwise */
    uint8_t reason;      /* one of the numbers above */
    uint8_t task;        /* the running job's for reasons 3 and 4, or 0 */
    struct HeadTick due; /* its deadline for reasons 3 and 4, or 0 */
};

/* Checks a task table of `count` lines, which it reads and does not change; of more than 32 it reads none.
 * `lines` is not null where the count is 0 either. */
struct HeadChecked head_check(const struct HeadLine *lines, size_t count);

/* Time moves to `at`. No kernel call. Refused with 8. */
struct HeadAnswer head_tick(struct HeadState *s, struct HeadTick at);

/* A new job of `task`, due at `at` + its relative deadline, goes into the list behind all jobs with the same
 * deadline. If it is first it is released by ActivateTask; otherwise no kernel call. Refused with 8, 3, 4, 10, 9. */
struct HeadAnswer head_activate(struct HeadState *s, struct HeadTick at, uint8_t task);

/* The running job ends and leaves the list. If the new first job is delayed it is released by ChainTask;
 * otherwise TerminateTask. Refused with 8, 2. */
struct HeadAnswer head_terminate(struct HeadState *s, struct HeadTick at);

/* The running job ends, a new job of `task` goes into the list at the same tick, then as for head_terminate.
 * Refused with 8, 2, 3, 4, 9. */
struct HeadAnswer head_chain(struct HeadState *s, struct HeadTick at, uint8_t task);

/* Why the first pending job of `task`, in list order, runs or waits. Every field of the state stays as it was.
 * Refused with 3. */
struct HeadWhy head_why(const struct HeadState *s, uint8_t task);

#ifdef __cplusplus
}
#define HEAD_HOLDS static_assert
#else
#define HEAD_HOLDS _Static_assert
#endif

/* What the calls rely on. */
HEAD_HOLDS(sizeof(size_t) == 8 && sizeof(bool) == 1, "x86-64");
HEAD_HOLDS(sizeof(struct HeadLine) == 16 && offsetof(struct HeadLine, priority) == 8 && offsetof(struct HeadLine, limit) == 9, "HeadLine");
HEAD_HOLDS(sizeof(struct HeadTable) == 520 && offsetof(struct HeadTable, count) == 512, "HeadTable");
HEAD_HOLDS(sizeof(struct HeadJob) == 16 && offsetof(struct HeadJob, task) == 8 && offsetof(struct HeadJob, released) == 9, "HeadJob");
HEAD_HOLDS(sizeof(struct HeadTally) == 16 && offsetof(struct HeadTally, ended) == 4 && offsetof(struct HeadTally, response) == 8, "HeadTally");
HEAD_HOLDS(sizeof(struct HeadMonitor) == 512, "HeadMonitor");
HEAD_HOLDS(offsetof(struct HeadState, last) == 520 && offsetof(struct HeadState, jobs) == 528, "HeadState");
HEAD_HOLDS(offsetof(struct HeadState, count) == 1040 && offsetof(struct HeadState, monitor) == 1048, "HeadState");
HEAD_HOLDS(sizeof(struct HeadState) == 1560, "HeadState");
HEAD_HOLDS(sizeof(struct HeadLate) == 33 && offsetof(struct HeadLate, tasks) == 1, "HeadLate");
HEAD_HOLDS(offsetof(struct HeadAnswer, runs) == 1 && offsetof(struct HeadAnswer, task) == 2, "HeadAnswer");
HEAD_HOLDS(offsetof(struct HeadAnswer, due) == 8 && offsetof(struct HeadAnswer, call) == 16, "HeadAnswer");
HEAD_HOLDS(offsetof(struct HeadAnswer, called) == 17 && offsetof(struct HeadAnswer, late) == 18, "HeadAnswer");
HEAD_HOLDS(sizeof(struct HeadAnswer) == 56, "HeadAnswer");
HEAD_HOLDS(sizeof(struct HeadWhy) == 16 && offsetof(struct HeadWhy, reason) == 1, "HeadWhy");
HEAD_HOLDS(offsetof(struct HeadWhy, task) == 2 && offsetof(struct HeadWhy, due) == 8, "HeadWhy");
HEAD_HOLDS(sizeof(struct HeadVerdict) == 4, "HeadVerdict");
HEAD_HOLDS(sizeof(struct HeadChecked) == 1568 && offsetof(struct HeadChecked, verdict) == 1560, "HeadChecked");
#undef HEAD_HOLDS

#endif
