/* Calls that are cut off, for tests of what a power loss leaves: those of the proved crate cut_c (target/staticlib/libcut_c.a, x86-64),
 * which is linked beside libclash_c.a. A product has no use for them.
 *
 * A rewrite of a block is K + 1 operations of the chip: the erasure, with its codes, its marks and the count of its wear, then each page
 * with its code and its mark, offsets upward. Each call here takes what the call of clash.h or clash_runs.h takes whose name it has, then
 * `operations`: of all its rewrites, in order, so many operations are done and no more. Where the call needs no more, it is done whole.
 *
 * What is left is as after a power loss. The record is lost: the blank one is handed back, and no answer. In flash, codes, marks and wear
 * every block is as it was before the call or as its rewrite in this call leaves it, but for the one under way: of that one each page
 * marked 0 holds the bytes meant for it, or, before its erasure, it is the old block. What p-space, b-space, shelf and page buffer hold
 * then is left free. A call that would be refused changes nothing in flash, codes, marks and wear. */
#ifndef CLASH_CUT_H
#define CLASH_CUT_H

#include "clash.h"

#ifdef __cplusplus
extern "C" {
#endif

clash_cache clash_cut_write(clash_cache cache,
    uint8_t *flash, size_t flash_bytes, uint8_t *codes, size_t codes_bytes, uint8_t *marks, size_t marks_bytes,
    uint32_t *wear, size_t wear_count, uint8_t *pspace, size_t pspace_bytes, uint8_t *bspace, size_t bspace_bytes,
    uint8_t *shelf, size_t shelf_bytes, uint32_t n, const uint8_t *page, size_t page_bytes, uint32_t operations);

clash_cache clash_cut_part(clash_cache cache,
    uint8_t *flash, size_t flash_bytes, uint8_t *codes, size_t codes_bytes, uint8_t *marks, size_t marks_bytes,
    uint32_t *wear, size_t wear_count, uint8_t *pspace, size_t pspace_bytes, uint8_t *bspace, size_t bspace_bytes,
    uint8_t *shelf, size_t shelf_bytes, uint32_t n, uint32_t first,
    const uint8_t *bytes, size_t byte_count, uint8_t *page, size_t page_bytes, uint32_t operations);

clash_cache clash_cut_take_back(clash_cache cache,
    uint8_t *flash, size_t flash_bytes, uint8_t *codes, size_t codes_bytes, uint8_t *marks, size_t marks_bytes,
    uint32_t *wear, size_t wear_count, uint8_t *pspace, size_t pspace_bytes, uint8_t *bspace, size_t bspace_bytes,
    const uint8_t *shelf, size_t shelf_bytes, uint32_t operations);

clash_cache clash_cut_step(clash_cache cache,
    uint8_t *flash, size_t flash_bytes, uint8_t *codes, size_t codes_bytes, uint8_t *marks, size_t marks_bytes,
    uint32_t *wear, size_t wear_count, const uint8_t *pspace, size_t pspace_bytes, uint8_t *bspace, size_t bspace_bytes,
    const uint8_t *shelf, size_t shelf_bytes, uint32_t operations);

clash_cache clash_cut_flush(clash_cache cache,
    uint8_t *flash, size_t flash_bytes, uint8_t *codes, size_t codes_bytes, uint8_t *marks, size_t marks_bytes,
    uint32_t *wear, size_t wear_count, const uint8_t *pspace, size_t pspace_bytes, uint8_t *bspace, size_t bspace_bytes,
    const uint8_t *shelf, size_t shelf_bytes, uint32_t operations);

/* Of the catalogue (clash_runs.h). */
clash_cache clash_cut_run_add(clash_cache cache,
    uint8_t *flash, size_t flash_bytes, uint8_t *codes, size_t codes_bytes, uint8_t *marks, size_t marks_bytes,
    uint32_t *wear, size_t wear_count, uint8_t *pspace, size_t pspace_bytes, uint8_t *bspace, size_t bspace_bytes,
    uint8_t *shelf, size_t shelf_bytes, uint32_t sheets, uint32_t role, uint32_t trainee,
    uint32_t sample, uint32_t first, uint32_t count, uint8_t *page, size_t page_bytes, uint32_t operations);

clash_cache clash_cut_run_replace(clash_cache cache,
    uint8_t *flash, size_t flash_bytes, uint8_t *codes, size_t codes_bytes, uint8_t *marks, size_t marks_bytes,
    uint32_t *wear, size_t wear_count, uint8_t *pspace, size_t pspace_bytes, uint8_t *bspace, size_t bspace_bytes,
    uint8_t *shelf, size_t shelf_bytes, uint32_t sheets, uint32_t role, uint32_t trainee, uint32_t run,
    uint32_t sample, uint32_t first, uint32_t count, uint8_t *page, size_t page_bytes, uint32_t operations);

clash_cache clash_cut_run_mark(clash_cache cache,
    uint8_t *flash, size_t flash_bytes, uint8_t *codes, size_t codes_bytes, uint8_t *marks, size_t marks_bytes,
    uint32_t *wear, size_t wear_count, uint8_t *pspace, size_t pspace_bytes, uint8_t *bspace, size_t bspace_bytes,
    uint8_t *shelf, size_t shelf_bytes, uint32_t sheets, uint32_t role, uint32_t trainee, uint32_t run, uint32_t grade,
    uint8_t *page, size_t page_bytes, uint32_t operations);

#ifdef __cplusplus
}
#endif

#endif
