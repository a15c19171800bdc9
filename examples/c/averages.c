/* Averages of blocks by key switches: a map, its plan, the keys that the plan asks for, and a run that follows it.
 *
 * A vector of 8 slots is two blocks of 4. The map puts the sum of a block into each of its slots; who decrypts the
 * result divides by 4. Nothing is encrypted here: the run makes the same switches on plain slots, to try the plan.
 *
 *     cc -std=c11 averages.c $(pkg-config --cflags --libs sibukyaran) -o averages
 */
#include <inttypes.h>
#include <sibukyaran.h>
#include <stdio.h>
#include <string.h>

#define SLOTS 8
#define BLOCK 4
#define TERMS (BLOCK * BLOCK)
#define STRATEGY SIBUKYARAN_BSGS_POWERS_OF_TWO
#define WIDTH 2
/* More than any list here takes: a result stands in front of its buffer, and too short a buffer is refused with 12. */
#define ROOM 64

/* The map: offset and stored length of each diagonal, and their values. */
static uint32_t pairs[ROOM];
static uint64_t values[ROOM];

/* Output i of a block takes each input j of the block once. The answer's value is the number of diagonals. */
static struct sibukyaran_numbers block_sums(void) {
    uint32_t is[TERMS], js[TERMS];
    uint64_t ws[TERMS];
    for (uint32_t t = 0; t < TERMS; t++) {
        is[t] = t / BLOCK;
        js[t] = t % BLOCK;
        ws[t] = 1;
    }
    return sibukyaran_from_slot_map(SLOTS, BLOCK, is, TERMS, js, TERMS, ws, TERMS, pairs, ROOM, values, ROOM);
}

/* The product of the map and an input by all of the plan's switches, with the keys that are held. */
static struct sibukyaran_keyed_numbers run(size_t count, const uint64_t *input, const uint64_t *held, size_t held_len,
                                           uint64_t *out) {
    uint32_t plan[ROOM], log[ROOM];
    uint64_t cache[ROOM], nodes[ROOM];
    struct sibukyaran_pair_record records[ROOM];
    return sibukyaran_evaluate_keyed(SLOTS, count, pairs, ROOM, values, ROOM, input, SLOTS, STRATEGY, WIDTH, held,
                                     held_len, UINT64_MAX, plan, ROOM, records, ROOM, cache, ROOM, nodes, ROOM, log,
                                     ROOM, out, SLOTS);
}

int main(void) {
    const uint64_t input[SLOTS] = {3, 5, 2, 6, 10, 14, 11, 13}, sevens[SLOTS] = {7, 7, 7, 7, 7, 7, 7, 7};
    uint64_t plain[SLOTS], keyed[SLOTS], held[ROOM];
    uint32_t plan[ROOM], keys[ROOM];
    int64_t diagonals[ROOM];

    struct sibukyaran_numbers map = block_sums();
    for (size_t k = 0; k < map.value; k++) diagonals[k] = pairs[2 * k];
    struct sibukyaran_plan_numbers parts =
        sibukyaran_linear_transform_index(diagonals, map.value, SLOTS, STRATEGY, WIDTH, plan, ROOM);
    struct sibukyaran_numbers asked =
        sibukyaran_plan_key_rotations(diagonals, map.value, SLOTS, STRATEGY, WIDTH, keys, ROOM);
    if (map.refusal != 0 || parts.refusal != 0 || asked.refusal != 0) return 1;
    printf("%zu diagonals, %" PRIu32 " babies, %" PRIu32 " giants\nkeys:", map.value, parts.babies, parts.giants);
    for (size_t k = 0; k < asked.value; k++) printf(" %" PRIu32, keys[k]);
    for (size_t k = 0; k < asked.value; k++) held[k] = keys[k];

    struct sibukyaran_keyed_numbers done = run(map.value, input, held, asked.value, keyed);
    uint32_t refusal = sibukyaran_evaluate(SLOTS, map.value, pairs, ROOM, values, ROOM, input, SLOTS, STRATEGY, WIDTH,
                                           plain, SLOTS);
    if (done.refusal != 0 || refusal != 0) return 1;
    printf("\n%zu switches: averages %" PRIu64 " and %" PRIu64 "\n", done.switches, keyed[0] / BLOCK, keyed[7] / BLOCK);
    printf("the plain run has the same sums: %s\n", memcmp(plain, keyed, sizeof plain) == 0 ? "yes" : "no");

    /* Without one of its keys the run is refused before it writes anything. */
    memcpy(keyed, sevens, sizeof keyed);
    done = run(map.value, input, held, asked.value - 1, keyed);
    printf("without key %" PRIu32 ": refusal %" PRIu32 ", out as it was: %s\n", keys[asked.value - 1], done.refusal,
           memcmp(keyed, sevens, sizeof keyed) == 0 ? "yes" : "no");
    return 0;
}
