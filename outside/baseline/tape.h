/* The event tape of document 01. Reading and writing give 0 or the number that they refuse with. */
#ifndef TAPE_H
#define TAPE_H

#include "sched.h"

#define LONGEST_TAPE 65536

enum { TAPE_END = 1 }; /* read_record: no byte is left */
enum kind { TICK, ACTIVATE, TERMINATE, CHAIN };

struct tape {
    const uint8_t *bytes;
    size_t length;
};

struct record {
    uint64_t tick;
    uint8_t kind; /* enum kind */
    uint8_t task; /* for ACTIVATE and CHAIN */
};

/* Reading starts at a place, which moves behind what was read. After a refusal it stands where it stood. */
int read_number(struct tape t, size_t *at, uint64_t *value);
int read_record(struct tape t, size_t *at, uint64_t preceding, struct record *r);

/* The table, from the tape's first byte on. Of a count above PLACES no line is read. */
int read_table(struct tape t, size_t *at, struct line lines[PLACES], size_t *count);

/* Writing starts at the buffer's first byte, and gives the count of the bytes. */
int write_number(uint64_t value, uint8_t *buf, size_t room, size_t *count);
int write_record(uint64_t preceding, struct record r, uint8_t *buf, size_t room, size_t *count);

/* A record's call. */
static inline void make_call(struct sched *s, const struct record *r, struct answer *a) {
    switch (r->kind) {
    case TICK: sched_tick(s, r->tick, a); break;
    case ACTIVATE: sched_activate(s, r->tick, r->task, a); break;
    case TERMINATE: sched_terminate(s, r->tick, a); break;
    default: sched_chain(s, r->tick, r->task, a); break;
    }
}

#endif
