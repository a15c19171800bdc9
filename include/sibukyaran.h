/* The C library: the calls of the crates under C names, proved for all arguments.
 *
 * A refusal is document 01's or 02's number, 0 for none: the first of the call's list that applies. A refused call leaves every
 * lent word and record as it was, and its value is 0. A slice is a pointer and a count; of a count of 0 the pointer is not
 * read. Lent outputs overlap nothing else that is lent to the same call.
 *
 * Stack: a call needs up to 581 KiB (the best width; the keyed run 578, the plan's keys 453, the plan 329, the builders of
 * maps 321, the plain run 5), measured on x86-64. A thread of 1 MiB is enough for each.
 */
#ifndef SIBUKYARAN_H
#define SIBUKYARAN_H

#include <stdbool.h>
#include <stddef.h>
#include <stdint.h>

/* The version of this interface and of the Rust crate. */
#define SIBUKYARAN_VERSION_MAJOR 0
#define SIBUKYARAN_VERSION_MINOR 2
#define SIBUKYARAN_VERSION_PATCH 0
#define SIBUKYARAN_VERSION "0.2.0"

#ifdef __cplusplus
extern "C" {
#endif

struct sibukyaran_numbers {
    uint32_t refusal;
    size_t value;
};

/* A truth beside a refusal; false where refused. */
struct sibukyaran_truth {
    uint32_t refusal;
    bool value;
};

/* A digit beside a refusal; 0 where refused. */
struct sibukyaran_signed_digit {
    uint32_t refusal;
    int64_t value;
};

/* The numbers of babies, giants and diagonals of a plan beside a refusal; 0 where refused. */
struct sibukyaran_plan_numbers {
    uint32_t refusal;
    uint32_t babies;
    uint32_t giants;
    uint32_t diagonals;
};

/* The numbers of passes and moves beside a refusal; 0 where refused. */
struct sibukyaran_pass_numbers {
    uint32_t refusal;
    uint32_t passes;
    size_t moves;
};

/* The bits and the number of pairs of a tree beside a refusal; 0 where refused, and where there is no tree. */
struct sibukyaran_tree_numbers {
    uint32_t refusal;
    uint32_t bits;
    size_t pairs;
};

/* A pair of a tree. */
struct sibukyaran_pair_record {
    uint32_t odd;    /* the odd node */
    bool even_there; /* whether node odd - 1 is there */
};

/* a * b modulo 2^64. */
uint64_t sibukyaran_wrapping_mul(uint64_t a, uint64_t b);

/* out[i] += a[i] * b[i] modulo 2^64. 7: the three lengths differ. */
uint32_t sibukyaran_multiply_add_into(const uint64_t *a, size_t a_len, const uint64_t *b, size_t b_len, uint64_t *out,
                                      size_t out_len);

/* The least non-negative residue of x modulo m; 0 where m is 0. */
uint32_t sibukyaran_residue(int64_t x, uint32_t m);

/* The greatest common divisor. */
uint32_t sibukyaran_gcd(uint32_t a, uint32_t b);

/* The least common multiple. 3: an argument is outside 1..65536. */
struct sibukyaran_numbers sibukyaran_period_lcm(size_t a, size_t b);

/* The smallest p dividing v's length with v[t] = v[t mod p] for every t. 3: the length is outside 1..65536. */
struct sibukyaran_numbers sibukyaran_min_period(const uint64_t *v, size_t v_len);

/* ---- The map store.
 *
 * A map is its slots (1..65536), the number of its pairs, pairs of 32-bit words (diagonal offset, stored length) with
 * offsets rising strictly, and the values of the diagonals back to back. Its buffers may be longer than the map. Lengths
 * of slices are counted in words, so a map of count pairs has 2 * count words of pairs.
 *
 * 1: slots is outside 1..65536. 2: a lent map is not well formed. 12: a lent output is shorter than the whole result.
 * Words behind a result are kept.
 */

/* The number of pairs of the empty map, 0. */
struct sibukyaran_numbers sibukyaran_new(size_t slots);

/* 1 or 2 where the map would be refused, else 0. */
uint32_t sibukyaran_map_refusal(size_t slots, size_t count, const uint32_t *pairs, size_t pairs_len,
                                const uint64_t *values, size_t values_len);

struct sibukyaran_truth sibukyaran_is_empty(size_t slots, size_t count, const uint32_t *pairs, size_t pairs_len,
                                            const uint64_t *values, size_t values_len);

/* The offsets into out; the value is their number. */
struct sibukyaran_numbers sibukyaran_indexes(size_t slots, size_t count, const uint32_t *pairs, size_t pairs_len,
                                             const uint64_t *values, size_t values_len, uint32_t *out, size_t out_len);

/* The stored length of the diagonal at an index, 0 where it is absent. */
struct sibukyaran_numbers sibukyaran_period(size_t slots, size_t count, const uint32_t *pairs, size_t pairs_len,
                                            const uint64_t *values, size_t values_len, int64_t index);

/* One period of the diagonal at an index into out; the value is its length, 0 where it is absent. */
struct sibukyaran_numbers sibukyaran_get_into(size_t slots, size_t count, const uint32_t *pairs, size_t pairs_len,
                                              const uint64_t *values, size_t values_len, int64_t index, uint64_t *out,
                                              size_t out_len);

/* Replaces or inserts the diagonal at an index; the value is the new number of pairs. 4: a length that is 0 or does not
 * divide slots. */
struct sibukyaran_numbers sibukyaran_set(size_t slots, size_t count, uint32_t *pairs, size_t pairs_len, uint64_t *values,
                                         size_t values_len, int64_t index, const uint64_t *new_values,
                                         size_t new_values_len);

/* The map whose output i + q*period sums w * input[(j + q*period) mod slots] over the terms (i, j, w). 4: the period is
 * 0 or does not divide slots. 7: the lists differ in length. 8: a term has i >= period or j >= slots. */
struct sibukyaran_numbers sibukyaran_from_slot_map(size_t slots, size_t period, const uint32_t *is, size_t is_len,
                                                   const uint32_t *js, size_t js_len, const uint64_t *ws, size_t ws_len,
                                                   uint32_t *pairs, size_t pairs_len, uint64_t *values,
                                                   size_t values_len);

/* out[j] = src[(j + k) mod src_len]. 3: src_len is outside 1..65536. 7: out_len is no multiple of src_len. */
uint32_t sibukyaran_rotate_slots_into(const uint64_t *src, size_t src_len, int64_t k, uint64_t *out, size_t out_len);

/* Every diagonal at the least common multiple of their smallest periods, into a second map. */
struct sibukyaran_numbers sibukyaran_shrink_period(size_t slots, size_t count, const uint32_t *pairs, size_t pairs_len,
                                                   const uint64_t *values, size_t values_len, uint32_t *pairs_out,
                                                   size_t pairs_out_len, uint64_t *values_out, size_t values_out_len);

/* The transposed matrix, into a second map. */
struct sibukyaran_numbers sibukyaran_transpose(size_t slots, size_t count, const uint32_t *pairs, size_t pairs_len,
                                               const uint64_t *values, size_t values_len, uint32_t *pairs_out,
                                               size_t pairs_out_len, uint64_t *values_out, size_t values_out_len);

/* ---- Map files: the same bytes for a map at both ends.
 *
 * A file is slots and the number of pairs, four bytes each, then the pairs, four bytes a number, then the values, eight bytes
 * each, all least byte first. 13: the bytes are no file of a map: they are short, long or not well formed, or their slots are
 * outside 1..65536. 12: a lent output is shorter than the whole result. Bytes and words behind a result are kept. */

/* The room that a file's map needs beside a refusal; 0 where refused. */
struct sibukyaran_file_room_numbers {
    uint32_t refusal;
    size_t pairs;  /* words of pairs */
    size_t values; /* words of values */
};

/* A map's slots and number of pairs beside a refusal; 0 where refused. */
struct sibukyaran_file_map_numbers {
    uint32_t refusal;
    size_t slots;
    size_t count;
};

/* The number of bytes of a map's file. 1, 2: the map is refused. */
struct sibukyaran_numbers sibukyaran_map_file_size(size_t slots, size_t count, const uint32_t *pairs, size_t pairs_len,
                                                   const uint64_t *values, size_t values_len);

/* The file of a map into out; the value is the number of its bytes. 1, 2: the map is refused. */
struct sibukyaran_numbers sibukyaran_write_map_file(size_t slots, size_t count, const uint32_t *pairs, size_t pairs_len,
                                                    const uint64_t *values, size_t values_len, uint8_t *out,
                                                    size_t out_len);

/* The room that the map of a file needs. */
struct sibukyaran_file_room_numbers sibukyaran_map_file_room(const uint8_t *bytes, size_t bytes_len);

/* The map of a file into pairs and values. */
struct sibukyaran_file_map_numbers sibukyaran_read_map_file(const uint8_t *bytes, size_t bytes_len, uint32_t *pairs,
                                                            size_t pairs_len, uint64_t *values, size_t values_len);

/* ---- Strategies. A strategy is its kind and its giant step, which Direct has not: any number stands for it there. A
 * kind that there is not is refused by 3. */
#define SIBUKYARAN_BSGS 0
#define SIBUKYARAN_BSGS_POWERS_OF_TWO 1
#define SIBUKYARAN_DIRECT 2

/* ---- The plain run: the product of a map and an input into the first slots words of out, the same for each strategy.
 *
 * 3: the giant step is outside 1..65536. 7: the input is not slots long. */

uint32_t sibukyaran_evaluate(size_t slots, size_t count, const uint32_t *pairs, size_t pairs_len,
                             const uint64_t *values, size_t values_len, const uint64_t *input, size_t input_len,
                             uint32_t strategy, size_t giant_step, uint64_t *out, size_t out_len);

/* ---- The keyed run: the same product by key switches alone, each a rotation whose key is held, stopped after n switches.
 *
 * plan, of B + 3 * G + D words, and records, one a pair of the tree, level after level (none but with powers of two), are
 * written in full for every n. cache, of (B - 1) * slots words, nodes, of G * slots, log, with a word for each switch of the
 * plan, and out, of slots, hold what document 01's machine leaves after n switches; words that it has not written, and words
 * and records behind a result, are kept. Finished, out begins with the product. B, G and D are the numbers of babies, giants
 * and diagonals that the answer carries.
 *
 * 3 and 7: as above. 11: a key rotation of the plan is not on the held list, which may be in any order. 12: an output is
 * shorter than its whole result; records_len counts records. After a refusal no word and no record is changed. */

struct sibukyaran_keyed_numbers {
    uint32_t refusal;
    size_t switches;
    bool finished;
    uint32_t babies;
    uint32_t giants;
    uint32_t diagonals;
    size_t pairs;
};

struct sibukyaran_keyed_numbers sibukyaran_evaluate_keyed(
    size_t slots, size_t count, const uint32_t *pairs, size_t pairs_len, const uint64_t *values, size_t values_len,
    const uint64_t *input, size_t input_len, uint32_t strategy, size_t giant_step, const uint64_t *held, size_t held_len,
    uint64_t n, uint32_t *plan, size_t plan_len, struct sibukyaran_pair_record *records, size_t records_len,
    uint64_t *cache, size_t cache_len, uint64_t *nodes, size_t nodes_len, uint32_t *log, size_t log_len, uint64_t *out,
    size_t out_len);

/* ---- Plans. */

/* The residue of a diagonal index modulo slots. 1: slots. */
struct sibukyaran_numbers sibukyaran_normalize_linear_transform_diagonal(int64_t diagonal, size_t slots);

/* k of the baby rotation k * baby_step. 3: the step. 9: the baby is negative, above 65535 or no multiple of the step. */
struct sibukyaran_numbers sibukyaran_baby_multiple(int64_t baby, size_t baby_step);

/* j of the giant rotation j * giant_step; where the step divides slots, the j of least magnitude, half the period being
 * negative. 1: slots. 3: the step. 10: the rotation's residue is no multiple of the step. */
struct sibukyaran_signed_digit sibukyaran_giant_digit(int64_t rot, size_t giant_step, size_t slots);

/* The plan of a list of diagonal indexes, of any order, with repeats, any of a residue's numbers: babies, giants, a pair
 * (start, length) a giant, and the index that the pairs point into, back to back in plan.
 *
 * 1: slots. 3: the giant step. 12: plan is shorter than babies + 3 * giants + diagonals words. */
struct sibukyaran_plan_numbers sibukyaran_linear_transformation_plan(const int64_t *indexes, size_t indexes_len,
                                                                     size_t slots, size_t giant_step, uint32_t *plan,
                                                                     size_t plan_len);

/* The same by a strategy: with powers of two the babies are closed under clearing top bits. */
struct sibukyaran_plan_numbers sibukyaran_linear_transform_index(const int64_t *indexes, size_t indexes_len,
                                                                 size_t slots, uint32_t strategy, size_t giant_step,
                                                                 uint32_t *plan, size_t plan_len);

/* The plan's babies alone. */
struct sibukyaran_numbers sibukyaran_baby_steps(const int64_t *indexes, size_t indexes_len, size_t slots,
                                                uint32_t strategy, size_t giant_step, uint32_t *out, size_t out_len);

/* The baby step of the plan with powers of two: the greatest common divisor of the babies, or 1 if that is 0. */
struct sibukyaran_numbers sibukyaran_baby_step(const int64_t *indexes, size_t indexes_len, size_t slots,
                                               size_t giant_step);

/* The rotations that a run of the plan needs keys for: of the babies, then of the giants. */
struct sibukyaran_numbers sibukyaran_plan_key_rotations(const int64_t *indexes, size_t indexes_len, size_t slots,
                                                        uint32_t strategy, size_t giant_step, uint32_t *out,
                                                        size_t out_len);

/* The number of key switches that a run of the plan makes. */
struct sibukyaran_numbers sibukyaran_plan_key_switches(const int64_t *indexes, size_t indexes_len, size_t slots,
                                                       uint32_t strategy, size_t giant_step);

/* The best width: of the multiples of the smallest gap below slots, the largest of least cost. 1: slots. */
struct sibukyaran_numbers sibukyaran_optimal_bsgs_giant_step(const int64_t *indexes, size_t indexes_len, size_t slots);

/* ---- Rotations: a kind, a baby step, a giant step and slots, which count with powers of two only. Lists of babies and
 * giants come in any order with repeats.
 *
 * With powers of two, 1: slots. 3: a step is outside 1..65536. A kind that there is not has no steps: 1 if its slots are out
 * of range, else 3. 9: a baby is negative, above 65535 or, with powers of two, no multiple of the baby step. 10: with
 * powers of two, a giant's residue is no multiple of the giant step. 12: a lent output is too short. */
#define SIBUKYARAN_PER_ROTATION 0
#define SIBUKYARAN_POWERS_OF_TWO 1

/* The babies, sorted and distinct, and with powers of two what is met by clearing top bits of their multiples. */
struct sibukyaran_numbers sibukyaran_baby_closure(uint32_t rotations, size_t baby_step, size_t giant_step, size_t slots,
                                                  const int64_t *babies, size_t babies_len, uint32_t *out,
                                                  size_t out_len);

/* The passes over the babies, in their order: a pass is three words (rotation, number of moves, least word first), a move
 * two (source, target). None per rotation. */
struct sibukyaran_pass_numbers sibukyaran_baby_passes(uint32_t rotations, size_t baby_step, size_t giant_step,
                                                      size_t slots, const int64_t *babies, size_t babies_len,
                                                      uint32_t *passes, size_t passes_len, uint32_t *moves,
                                                      size_t moves_len);

/* The rotations that the babies need keys for: those that are not 0, or the passes of their closure. */
struct sibukyaran_numbers sibukyaran_baby_key_rotations(uint32_t rotations, size_t baby_step, size_t giant_step,
                                                        size_t slots, const int64_t *babies, size_t babies_len,
                                                        uint32_t *out, size_t out_len);

/* The tree over the giants: a leaf a giant, two words (rotation, number of pairs) a level, a record a pair, level after
 * level. records_len counts records; those behind the tree's are kept. Per rotation there is none, and nothing is
 * written. */
struct sibukyaran_tree_numbers sibukyaran_giant_tree(uint32_t rotations, size_t baby_step, size_t giant_step,
                                                     size_t slots, const int64_t *giants, size_t giants_len,
                                                     uint32_t *leaves, size_t leaves_len, uint32_t *levels,
                                                     size_t levels_len, struct sibukyaran_pair_record *records,
                                                     size_t records_len);

/* The rotations of the tree's levels that have pairs; none per rotation. */
struct sibukyaran_numbers sibukyaran_giant_key_rotations(uint32_t rotations, size_t baby_step, size_t giant_step,
                                                         size_t slots, const int64_t *giants, size_t giants_len,
                                                         uint32_t *out, size_t out_len);

/* The pairs of all levels; per rotation the giants that are not 0. */
struct sibukyaran_numbers sibukyaran_giant_key_switches(uint32_t rotations, size_t baby_step, size_t giant_step,
                                                        size_t slots, const int64_t *giants, size_t giants_len);

/* ---- Matrix maps. A matrix slot is d * d slots, d = 2^log_d, with the entries of a d by d matrix row after row. Each call
 * writes a map in front of pairs and values and answers the number of its pairs.
 *
 * 1: slots. 5: log_d is above 8, count is 0, or count * d * d does not divide slots. 6: the shift k exceeds d, or 65536 for
 * rotate_rows and rotate_cols, which take it modulo d. 7: the public matrices are not count * d * d words, or the lists of
 * terms differ in length. 8: a term is out of range. 12: pairs or values is too short.
 *
 * The maps from sigma to rows_right, and per_matrix_map, are stored at the smallest period that holds them. They need room
 * for the map at period d * d; the values between the two totals are left in any state. The others need room for the
 * stored map alone: tau_rep, rotate_rows_rep, left_mul_rep, first_row, first_col, slot_product and the products. */

/* JKLS sigma: output (r, c) reads (r, r + c mod d). */
struct sibukyaran_numbers sibukyaran_sigma(size_t slots, size_t log_d, uint32_t *pairs, size_t pairs_len,
                                           uint64_t *values, size_t values_len);

/* JKLS tau: output (r, c) reads (r + c mod d, c). */
struct sibukyaran_numbers sibukyaran_tau(size_t slots, size_t log_d, uint32_t *pairs, size_t pairs_len,
                                         uint64_t *values, size_t values_len);

/* Output (r, c) reads (c, r). */
struct sibukyaran_numbers sibukyaran_transpose_matrices(size_t slots, size_t log_d, uint32_t *pairs, size_t pairs_len,
                                                        uint64_t *values, size_t values_len);

/* JKLS psi^k: output (r, c) reads (r + k mod d, c). 6: k is above 65536. */
struct sibukyaran_numbers sibukyaran_rotate_rows(size_t slots, size_t log_d, size_t k, uint32_t *pairs,
                                                 size_t pairs_len, uint64_t *values, size_t values_len);

/* JKLS phi^k: output (r, c) reads (r, c + k mod d). 6: k is above 65536. */
struct sibukyaran_numbers sibukyaran_rotate_cols(size_t slots, size_t log_d, size_t k, uint32_t *pairs,
                                                 size_t pairs_len, uint64_t *values, size_t values_len);

/* Output (r, c) reads (r + k, c) where r + k < d, else 0. */
struct sibukyaran_numbers sibukyaran_rows_upper(size_t slots, size_t log_d, size_t k, uint32_t *pairs,
                                                size_t pairs_len, uint64_t *values, size_t values_len);

/* Output (r, c) reads (r + k - d, c) where r + k >= d, else 0. */
struct sibukyaran_numbers sibukyaran_rows_lower(size_t slots, size_t log_d, size_t k, uint32_t *pairs,
                                                size_t pairs_len, uint64_t *values, size_t values_len);

/* Output (r, c) reads (r, c + k) where c + k < d, else 0. */
struct sibukyaran_numbers sibukyaran_cols_left(size_t slots, size_t log_d, size_t k, uint32_t *pairs,
                                               size_t pairs_len, uint64_t *values, size_t values_len);

/* Output (r, c) reads (r, c + k - d) where c + k >= d, else 0. */
struct sibukyaran_numbers sibukyaran_cols_right(size_t slots, size_t log_d, size_t k, uint32_t *pairs,
                                                size_t pairs_len, uint64_t *values, size_t values_len);

/* Output (r, c) reads (r + k mod d, c) where c + k < d, else 0. */
struct sibukyaran_numbers sibukyaran_rows_left(size_t slots, size_t log_d, size_t k, uint32_t *pairs,
                                               size_t pairs_len, uint64_t *values, size_t values_len);

/* Output (r, c) reads (r + k mod d, c) where c + k >= d, else 0. */
struct sibukyaran_numbers sibukyaran_rows_right(size_t slots, size_t log_d, size_t k, uint32_t *pairs,
                                                size_t pairs_len, uint64_t *values, size_t values_len);

/* The slot map of the terms (i, j, w) at period d * d, shrunk. */
struct sibukyaran_numbers sibukyaran_per_matrix_map(size_t slots, size_t log_d, const uint32_t *is, size_t is_len,
                                                    const uint32_t *js, size_t js_len, const uint64_t *ws,
                                                    size_t ws_len, uint32_t *pairs, size_t pairs_len,
                                                    uint64_t *values, size_t values_len);

/* tau on an input that repeats every d * d slots: a diagonal at each c * d, the mask of column c. */
struct sibukyaran_numbers sibukyaran_tau_rep(size_t slots, size_t log_d, uint32_t *pairs, size_t pairs_len,
                                             uint64_t *values, size_t values_len);

/* rotate_rows on such an input: one diagonal at k * d. 6: k is not in 1..d-1. */
struct sibukyaran_numbers sibukyaran_rotate_rows_rep(size_t slots, size_t log_d, size_t k, uint32_t *pairs,
                                                     size_t pairs_len, uint64_t *values, size_t values_len);

/* Output (r, c) reads (r, c) where r is 0, else 0. */
struct sibukyaran_numbers sibukyaran_first_row(size_t slots, size_t log_d, uint32_t *pairs, size_t pairs_len,
                                               uint64_t *values, size_t values_len);

/* Output (r, c) reads (r, c) where c is 0, else 0. */
struct sibukyaran_numbers sibukyaran_first_col(size_t slots, size_t log_d, uint32_t *pairs, size_t pairs_len,
                                               uint64_t *values, size_t values_len);

/* Products by public matrices b, count of them row after row, of which matrix slot s has number s mod count. Output (r, c)
 * is the sum of in(r, l) * b(l, c). */
struct sibukyaran_numbers sibukyaran_right_mul(size_t slots, size_t log_d, size_t count, const uint64_t *b,
                                               size_t b_len, uint32_t *pairs, size_t pairs_len, uint64_t *values,
                                               size_t values_len);

/* Output (r, c) is the sum of b(r, l) * in(l, c). */
struct sibukyaran_numbers sibukyaran_left_mul(size_t slots, size_t log_d, size_t count, const uint64_t *b,
                                              size_t b_len, uint32_t *pairs, size_t pairs_len, uint64_t *values,
                                              size_t values_len);

/* Stage 2 of the right product, on the product of sigma. */
struct sibukyaran_numbers sibukyaran_right_jkls(size_t slots, size_t log_d, size_t count, const uint64_t *b,
                                                size_t b_len, uint32_t *pairs, size_t pairs_len, uint64_t *values,
                                                size_t values_len);

/* Stage 2 of the left product, on the product of tau. */
struct sibukyaran_numbers sibukyaran_left_jkls(size_t slots, size_t log_d, size_t count, const uint64_t *b,
                                               size_t b_len, uint32_t *pairs, size_t pairs_len, uint64_t *values,
                                               size_t values_len);

/* left_mul of one matrix on an input that repeats every d * d slots. */
struct sibukyaran_numbers sibukyaran_left_mul_rep(size_t slots, size_t log_d, const uint64_t *b, size_t b_len,
                                                  uint32_t *pairs, size_t pairs_len, uint64_t *values,
                                                  size_t values_len);

/* The product by the slot vector v rotated: one diagonal at offset 0. 1: slots. 4: v's length is 0 or does not divide slots. */
struct sibukyaran_numbers sibukyaran_slot_product(size_t slots, const uint64_t *v, size_t v_len, int64_t rotation,
                                                  uint32_t *pairs, size_t pairs_len, uint64_t *values,
                                                  size_t values_len);

/* Tau and sigma of public matrices, count * d * d words: entry (r, c) is b(r + c mod d, c), or b(r, r + c mod d). 5: log_d is
 * above 8, count is 0, or count * d * d exceeds 65536. 7: b is not count * d * d words. */
struct sibukyaran_numbers sibukyaran_tau_values(size_t log_d, size_t count, const uint64_t *b, size_t b_len,
                                                uint64_t *out, size_t out_len);
struct sibukyaran_numbers sibukyaran_sigma_values(size_t log_d, size_t count, const uint64_t *b, size_t b_len,
                                                  uint64_t *out, size_t out_len);

#ifdef __cplusplus
}
#endif

#endif
