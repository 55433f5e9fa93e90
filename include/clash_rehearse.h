/* Rehearsing a class: sizes of a store tried against an imagined class before a course. The call of the proved crate rehearsal_c
 * (target/staticlib/librehearsal_c.a, x86-64), which needs nothing of libclash_c.a.
 *
 * The store is the plain one, LRU and no option, on a new chip and with an empty cache. The benches are served in turn: turn t is bench t
 * mod benches. A state of 32 bits advances three times in a turn, as state * 1,664,525 + 1,013,904,223. By the first (its upper 8 bits) it
 * is a write, where that is below write_rate, or else a read. By the second, likewise with run_rate, the bench goes on with the page after
 * its last one, or else the third (its upper 16 bits) is the page, modulo the pages of the chip. A bench's last page is 0 at first.
 *
 * All is done within the call, on its own stack: about 130,000 bytes. */
#ifndef CLASH_REHEARSE_H
#define CLASH_REHEARSE_H

#include "clash.h"

#ifdef __cplusplus
extern "C" {
#endif

/* The sizes and the wear limit as clash_sizes has them, where flash, p-space and b-space take 32,768 bytes each at most; and the class. */
typedef struct {
    uint32_t page_size;
    uint32_t pages_per_block;
    uint32_t blocks;
    uint32_t slots;
    uint32_t frames;
    uint32_t wear_limit;
    uint32_t benches;    /* 1 to 16 */
    uint32_t turns;      /* 0 to 1,024 */
    uint32_t write_rate; /* 0 to 256: of 256 turns so many are writes */
    uint32_t run_rate;   /* 0 to 256: of 256 turns so many go on with the bench's next page */
    uint32_t state;      /* at the start, any number */
} clash_setting;

/* What the class comes to. With CLASH_SIZE, for a setting that is out of its range, all else is 0. Otherwise accepted reads, accepted
 * writes and refused calls are the turns, and the erasures are the writes by way 7. */
typedef struct {
    uint32_t refusal;   /* 0, or CLASH_SIZE */
    uint32_t reads[4];  /* accepted reads, at the number of their way: 1 to 3 */
    uint32_t writes[8]; /* accepted writes, likewise: 1 to 7 */
    uint32_t erased;    /* blocks erased */
    uint32_t merged;    /* merge reads */
    uint32_t refused;   /* calls that were refused, as worn */
} clash_tallies;

CLASH_ASSERT(sizeof(clash_setting) == 44 && sizeof(clash_tallies) == 64, "setting and tallies");
CLASH_ASSERT(offsetof(clash_setting, benches) == 24 && offsetof(clash_setting, state) == 40, "the class in the setting");
CLASH_ASSERT(offsetof(clash_tallies, writes) == 20 && offsetof(clash_tallies, erased) == 52, "writes and erasures in the tallies");

clash_tallies clash_rehearse(clash_setting setting);

#ifdef __cplusplus
}
#endif

#endif
