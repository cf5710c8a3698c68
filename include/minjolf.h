/* The functions of the static library that `tools/build` makes. docs/CALLING.md says how to link it and what each
 * function writes; the refusal numbers are listed there too.
 *
 * A slice is a pointer and its length in elements. The caller's part: every pointer is valid for its length, or for its array's, and
 * aligned, not null even if the slice is empty; what is lent to be written overlaps nothing else of the call.
 * Any numbers may be passed: the answer is a result or a numbered refusal, and a refusal writes through no pointer. */
#ifndef MINJOLF_H
#define MINJOLF_H

#include <stddef.h>
#include <stdint.h>

#ifdef __cplusplus
extern "C" {
#endif

/* number: 0, or the refusal. place: the refusal's place, else 0. value: what each function says, on success; the residue's index
 * for refusal 16; else 0. */
typedef struct {
    uint64_t number;
    uint64_t place;
    uint64_t value;
} minjolf_answer;

/* Numbers in a record, a row or an array. */
enum {
    MINJOLF_OP_WIDTH = 16,
    MINJOLF_ACCESS_WIDTH = 29,
    MINJOLF_REGISTER_WIDTH = 8,
    MINJOLF_PAIR_WIDTH = 2,
    MINJOLF_CALL_WIDTH = 5, /* as read-back writes it */
    MINJOLF_HANDED_WIDTH = 5, /* as it is handed in */
    MINJOLF_COPY_COLUMNS = 41,
    MINJOLF_MEMW_COLUMNS = 49,
    MINJOLF_MEMW_ALIGNED_COLUMNS = 29,
    MINJOLF_MEMW_REGISTER_COLUMNS = 10,
    MINJOLF_STATE = 68,
    MINJOLF_STEP_RECORDS = 116
};

/* Kinds of a call. */
enum { MINJOLF_COPY = 0, MINJOLF_SET = 1, MINJOLF_WRITE = 2 };

/* Elements modulo p = 2^64 - 2^32 + 1. value: the element. */
minjolf_answer field_add(uint64_t a, uint64_t b);
minjolf_answer field_sub(uint64_t a, uint64_t b);
minjolf_answer field_mul(uint64_t a, uint64_t b);

/* One residue of one row. value: the residue. */
minjolf_answer copy_residue(uint64_t gap, const uint64_t *row, size_t row_length, uint64_t number);
minjolf_answer memw_residue(const uint64_t *row, size_t row_length, uint64_t number);
minjolf_answer memw_aligned_residue(const uint64_t *row, size_t row_length, uint64_t number);
minjolf_answer memw_register_residue(const uint64_t *row, size_t row_length, uint64_t number);

/* out: the two residues of emit_add_pair, then add_pair_carry_hi. */
minjolf_answer add_pair(const uint64_t *lhs, size_t lhs_length, const uint64_t *rhs, size_t rhs_length, const uint64_t *sum,
                        size_t sum_length, const uint64_t *conditions, size_t conditions_length, const uint64_t *row,
                        size_t row_length, uint64_t out[3]);

/* The four table makers. value: rows written, from the table's start on. */
minjolf_answer generate_copy_trace(const uint64_t *ops, size_t ops_length, uint64_t *table, size_t table_length);
minjolf_answer generate_memw_trace(const uint64_t *records, size_t records_length, uint64_t *table, size_t table_length);
minjolf_answer generate_memw_aligned_trace(const uint64_t *records, size_t records_length, uint64_t *table, size_t table_length);
minjolf_answer generate_memw_register_trace(const uint64_t *records, size_t records_length, uint64_t *table, size_t table_length);

/* value: records read. counts: records in the register, the aligned and the general list. */
minjolf_answer route_accesses(const uint64_t *accesses, size_t accesses_length, uint64_t *register_list, size_t register_length,
                              uint64_t *aligned, size_t aligned_length, uint64_t *general, size_t general_length,
                              uint64_t counts[3]);

/* lookups: a pair for each access that goes to the register table, in arrival order: low byte, then high byte, of the low stamp difference
 * less one. Refuses as route_accesses does, with 8, then record by record 10 and 11 (place: the record), then 9. value: pairs. */
minjolf_answer register_lookups(const uint64_t *accesses, size_t accesses_length, uint64_t *lookups, size_t lookups_length);

/* value: the route, 0 register (8 numbers written), 1 aligned, 2 general (29 written). */
minjolf_answer push_reg_access(uint64_t reg_addr, uint32_t val0, uint32_t val1, uint32_t old0, uint32_t old1, uint64_t timestamp,
                               uint64_t old_timestamp, uint64_t is_read, uint64_t record[29]);

/* The register state: 32 values, 32 stamps, index, index stamp, PC, PC stamp. */
minjolf_answer new_register_state(uint64_t entry_point, uint64_t stack_top, uint64_t state[68]);

/* value: access records, 3 or 4; all 116 numbers are written. */
minjolf_answer collect_copy_register_ops(uint64_t kind, uint64_t timestamp, uint64_t src, uint64_t dst, uint64_t count,
                                         uint64_t state[68], uint64_t records[116]);

/* value: operation records, one for each row. A row moves 8 bytes, or 1 where fewer remain or the 8 would lie on both sides of a multiple of
   4,096, in the source or, for Copy and Set, in the destination. counts: operation and access records. */
minjolf_answer collect_copy_ops(uint64_t kind, uint64_t timestamp, uint64_t src, uint64_t dst, uint64_t count, uint64_t gap,
                                uint8_t *bytes, size_t bytes_length, uint64_t *stamps, size_t stamps_length, uint64_t *ops,
                                size_t ops_length, uint64_t *accesses, size_t accesses_length, uint64_t counts[2]);

/* The first calls of the load of s, drawn from it alone: kind, stamp, src, dst, count of each. Refuses with 19 (more than 65,536 calls
 * are wanted), 9; place 0. value: calls. */
minjolf_answer generate_load(uint64_t s, uint64_t calls, uint64_t *out, size_t out_length);

/* Two lists of calls, as generate_load writes them, each in order of stamp, made into one in order of stamp, the first list's call ahead at
 * equal stamps. Refuses with 8, 10 (place: the call), 20 (a list out of order; place: the first call stamped below the one before it),
 * each of the first list and then of the second, its place counted in that list, then 9. value: calls. */
minjolf_answer join_calls(const uint64_t *first, size_t first_length, const uint64_t *second, size_t second_length, uint64_t *joined,
                          size_t joined_length);

/* One copy row by itself: 41 numbers. Refuses with 7, 13, 14 (place: the index of the lowest number not below p), 15, 16 (value: the
 * residue's index); place 0 but for 14. value: 0. */
minjolf_answer row_check(uint64_t gap, const uint64_t *row, size_t row_length);

/* value: rows. */
minjolf_answer chain_check(uint64_t gap, const uint64_t *rows, size_t rows_length);

/* value: operation records. counts: operation records and calls. */
minjolf_answer read_back(uint64_t gap, const uint64_t *rows, size_t rows_length, uint64_t *ops, size_t ops_length,
                         uint64_t *calls, size_t calls_length, uint64_t counts[2]);

#ifdef __cplusplus
}
#endif

#endif
