/* The entries of the static library libhost.a. docs/HOST.md has every byte. */
#ifndef YIFRANDEL_H
#define YIFRANDEL_H

#include <stddef.h>
#include <stdint.h>

/* kinds of plan */
#define YIFRANDEL_LOWER 0
#define YIFRANDEL_UPPER 1
#define YIFRANDEL_LOUPE 2

/* answers besides 0 and the refusals */
#define YIFRANDEL_TOO_SHORT 100
#define YIFRANDEL_NO_LINE 101

/* bytes that are written */
#define YIFRANDEL_PLAN_BYTES 16
#define YIFRANDEL_LINE_BYTES 18

uint32_t yifrandel_lookup(uint32_t q_pr, uint32_t q_cr, uint8_t *out, size_t out_len);

uint32_t yifrandel_plan_check(int32_t kind, int32_t g, int32_t h_a, int32_t h_r, int32_t n_t,
                              int32_t sigma, int32_t limit);

uint32_t yifrandel_table_line(int32_t kind, int32_t g, int32_t h_a, int32_t h_r, int32_t n_t,
                              int32_t sigma, int32_t limit, uint32_t n, uint8_t *out, size_t out_len);

#endif
