#include "gauge.h"

#include "sched.h"
#include "tape.h"

static uint64_t answer_in(const struct answer *a) {
    return a->due ^ a->task ^ a->result ^ a->late;
}

static bool open_tape(struct sched *s, struct tape t, size_t *at) {
    struct line lines[PLACES];
    size_t count;
    return t.length <= LONGEST_TAPE && read_table(t, at, lines, &count) == 0 && sched_check(s, lines, count).number == 0;
}

uint64_t base_calls(const uint8_t *tape, size_t length) {
    struct tape t = {tape, length};
    struct sched s;
    size_t at;
    uint64_t seen = 0;
    if (!open_tape(&s, t, &at)) return 0;
    struct record r = {0};
    while (read_record(t, &at, r.tick, &r) == 0) {
        struct answer a;
        make_call(&s, &r, &a);
        seen ^= r.tick ^ answer_in(&a);
    }
    return seen;
}

uint64_t base_records(const uint8_t *tape, size_t length) {
    struct tape t = {tape, length};
    struct sched s;
    size_t at;
    uint64_t seen = 0;
    if (!open_tape(&s, t, &at)) return 0;
    struct record r = {0};
    while (read_record(t, &at, r.tick, &r) == 0) seen ^= r.tick;
    return seen;
}

uint64_t base_numbers(const uint8_t *bytes, size_t length) {
    struct tape t = {bytes, length};
    size_t at = 0;
    uint64_t seen = 0, value;
    while (read_number(t, &at, &value) == 0) seen ^= value;
    return seen;
}

uint64_t base_written(const uint8_t *bytes, size_t length, uint8_t *buf, size_t room) {
    struct tape t = {bytes, length};
    size_t at = 0, count;
    uint64_t seen = 0, value;
    while (read_number(t, &at, &value) == 0) {
        int refusal = write_number(value, buf, room, &count);
        seen ^= value ^ (refusal != 0 ? (uint64_t)refusal : count);
    }
    return seen;
}
