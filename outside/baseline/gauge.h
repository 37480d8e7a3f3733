/* The same functions over the baseline (base_) and over the proved crates (gauge_, crates/gauge): tapes and numbers gone through. Each gives one
 * number that depends on all that was done. */
#ifndef GAUGE_H
#define GAUGE_H

#include <stddef.h>
#include <stdint.h>

/* A tape's records read and their calls made, to the end or a refusal. */
uint64_t base_calls(const uint8_t *tape, size_t length);
uint64_t gauge_calls(const uint8_t *tape, size_t length);

/* The same without the calls. */
uint64_t base_records(const uint8_t *tape, size_t length);
uint64_t gauge_records(const uint8_t *tape, size_t length);

/* Numbers read one after the other, to the end or a refusal. */
uint64_t base_numbers(const uint8_t *bytes, size_t length);
uint64_t gauge_numbers(const uint8_t *bytes, size_t length);

/* The same, and each is written to the buffer, from its first byte on. */
uint64_t base_written(const uint8_t *bytes, size_t length, uint8_t *buf, size_t room);
uint64_t gauge_written(const uint8_t *bytes, size_t length, uint8_t *buf, size_t room);

#endif
