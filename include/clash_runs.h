/* The catalogue of runs for C, above the page store: the calls of the proved crate catalogue_c (target/staticlib/libcatalogue_c.a,
 * x86-64), which is linked beside libclash_c.a. A store is opened with clash.h, and its other calls may be mixed with these as one likes.
 *
 * Pages 0 to sheets - 1 hold a sheet each: seven numbers of 32 bits, low byte first, and 0 for the rest of the page. The sheets are all
 * that the catalogue keeps, so a call is told how many there are: the same number each time, and no other call writes these pages.
 * A page whose first number is 0 or 4,294,967,295, as an erased one, is an empty sheet; of equal run numbers the first sheet counts.
 *
 * A call takes the record and the buffers as those of clash.h do, and the same holds of them, then the number of sheets, who calls (a
 * role and a trainee number), what it asks for, and a page buffer. It first reads every sheet, which is no use of a frame; an accepted
 * add, replace or mark leaves its sheet in the page buffer, an accepted read its page, and nothing else changes it. A refused call
 * changes nothing. clash_store_runs.h has calls with fewer arguments.
 *
 * Refused in this order: 12, 4, 2, 1, then what the store refuses of the lowest sheet that it refuses (7, 14), then 9, 10, 13, 11, then
 * what the store refuses of the last step (6, 7, 14). */
#ifndef CLASH_RUNS_H
#define CLASH_RUNS_H

#include "clash.h"

#ifdef __cplusplus
extern "C" {
#endif

/* Why a call of the catalogue is turned down, beside the numbers of clash.h. CLASH_SIZE is here: a page has fewer than 28 bytes, or there
 * are not 1 to 256 sheets, fewer than the chip has pages. */
enum {
    CLASH_FULL = 9,     /* add, replace: no sheet is empty, or the largest run number is 4,294,967,294 */
    CLASH_UNKNOWN = 10, /* there is no such run; list: the position is past the last one */
    CLASH_PAGES = 11,   /* add, replace: no page, a page below `sheets` or past the chip, or one of another run; read: the run has no page
                           of this index, or it is below `sheets` or past the chip; mark: above 100 */
    CLASH_ROLE = 12,    /* the role may not do this, or there is no such role */
    CLASH_REPLACED = 13 /* replace, mark: another run replaces this one already */
};

/* Who calls. Each may add, look, list and read; a tutor may replace too, and an examiner may do all six. */
enum {
    CLASH_TRAINEE = 0, /* looks at the sheet of another trainee with trainee 0 and CLASH_UNMARKED */
    CLASH_TUTOR = 1,
    CLASH_EXAMINER = 2
};

/* The mark of a run that has none. */
#define CLASH_UNMARKED 255u

/* The bytes of a page that a sheet takes: a page has at least so many. */
#define CLASH_SHEET_BYTES 28u

/* A sheet: 28 bytes. */
typedef struct {
    uint32_t run;      /* 1 to 4,294,967,294 */
    uint32_t trainee;
    uint32_t sample;
    uint32_t first;    /* its first data page */
    uint32_t count;    /* how many pages it has from there on */
    uint32_t mark;     /* 0 to 100, or CLASH_UNMARKED */
    uint32_t replaces; /* the run that it replaces, 0 for none; one not below its own counts as none */
} clash_run_sheet;

/* What a call does not answer is 0, but for the block in `answer`: CLASH_VACANT wherever no block is meant. */
typedef struct {
    clash_answer answer;   /* add, replace, mark: as clash_write; read: as clash_read; look, list: the refusal and the mends alone.
                              The mends are those of the whole call */
    uint32_t run;          /* look, list: the run; add, replace, mark: the run of the sheet, also where the store refuses to write it */
    uint32_t current;      /* look: the run that counts, found by following replacements upward */
    clash_run_sheet sheet; /* look: the sheet, as the caller sees it */
} clash_run_answer;

typedef struct {
    clash_cache cache;
    clash_run_answer answer;
} clash_run_reply;

CLASH_ASSERT(sizeof(clash_run_sheet) == 28 && sizeof(clash_run_answer) == 64 && sizeof(clash_run_reply) == 784, "sheet, answer and reply");
CLASH_ASSERT(offsetof(clash_run_sheet, trainee) == 4 && offsetof(clash_run_sheet, sample) == 8, "trainee and sample in the sheet");
CLASH_ASSERT(offsetof(clash_run_sheet, first) == 12 && offsetof(clash_run_sheet, count) == 16, "the pages in the sheet");
CLASH_ASSERT(offsetof(clash_run_sheet, mark) == 20 && offsetof(clash_run_sheet, replaces) == 24, "mark and replaced run in the sheet");
CLASH_ASSERT(offsetof(clash_run_answer, run) == 28 && offsetof(clash_run_answer, current) == 32, "run and current run in the answer");
CLASH_ASSERT(offsetof(clash_run_answer, sheet) == 36 && offsetof(clash_run_reply, answer) == 720, "sheet and answer");

/* The sheet of a run as the caller sees it, and the current run. */
clash_run_reply clash_run_look(clash_cache cache,
    const uint8_t *flash, size_t flash_bytes, const uint8_t *codes, size_t codes_bytes, const uint8_t *marks, size_t marks_bytes,
    const uint32_t *wear, size_t wear_count, const uint8_t *pspace, size_t pspace_bytes, const uint8_t *bspace, size_t bspace_bytes,
    const uint8_t *shelf, size_t shelf_bytes, uint32_t sheets, uint32_t role, uint32_t trainee, uint32_t run,
    uint8_t *page, size_t page_bytes);

/* The run at a position, from 0 in the order of the sheets. */
clash_run_reply clash_run_list(clash_cache cache,
    const uint8_t *flash, size_t flash_bytes, const uint8_t *codes, size_t codes_bytes, const uint8_t *marks, size_t marks_bytes,
    const uint32_t *wear, size_t wear_count, const uint8_t *pspace, size_t pspace_bytes, const uint8_t *bspace, size_t bspace_bytes,
    const uint8_t *shelf, size_t shelf_bytes, uint32_t sheets, uint32_t role, uint32_t trainee, uint32_t position,
    uint8_t *page, size_t page_bytes);

/* Fills page with the run's page of this index, from 0. Any role may read any run. */
clash_run_reply clash_run_read(clash_cache cache,
    const uint8_t *flash, size_t flash_bytes, const uint8_t *codes, size_t codes_bytes, const uint8_t *marks, size_t marks_bytes,
    const uint32_t *wear, size_t wear_count, const uint8_t *pspace, size_t pspace_bytes, const uint8_t *bspace, size_t bspace_bytes,
    const uint8_t *shelf, size_t shelf_bytes, uint32_t sheets, uint32_t role, uint32_t trainee, uint32_t run, uint32_t index,
    uint8_t *page, size_t page_bytes);

/* Adds a run of count pages from page first on, unmarked, for the trainee named. It gets the first empty sheet and the largest number
 * in use plus 1; the first run of an empty catalogue is 1. Its pages are not written. */
clash_run_reply clash_run_add(clash_cache cache,
    uint8_t *flash, size_t flash_bytes, uint8_t *codes, size_t codes_bytes, uint8_t *marks, size_t marks_bytes,
    uint32_t *wear, size_t wear_count, uint8_t *pspace, size_t pspace_bytes, uint8_t *bspace, size_t bspace_bytes,
    uint8_t *shelf, size_t shelf_bytes, uint32_t sheets, uint32_t role, uint32_t trainee,
    uint32_t sample, uint32_t first, uint32_t count, uint8_t *page, size_t page_bytes);

/* Adds a run that replaces another. The replaced run keeps its sheet and its pages. */
clash_run_reply clash_run_replace(clash_cache cache,
    uint8_t *flash, size_t flash_bytes, uint8_t *codes, size_t codes_bytes, uint8_t *marks, size_t marks_bytes,
    uint32_t *wear, size_t wear_count, uint8_t *pspace, size_t pspace_bytes, uint8_t *bspace, size_t bspace_bytes,
    uint8_t *shelf, size_t shelf_bytes, uint32_t sheets, uint32_t role, uint32_t trainee, uint32_t run,
    uint32_t sample, uint32_t first, uint32_t count, uint8_t *page, size_t page_bytes);

/* Marks a run, which no other replaces: 0 to 100. A marked run may be marked again. */
clash_run_reply clash_run_mark(clash_cache cache,
    uint8_t *flash, size_t flash_bytes, uint8_t *codes, size_t codes_bytes, uint8_t *marks, size_t marks_bytes,
    uint32_t *wear, size_t wear_count, uint8_t *pspace, size_t pspace_bytes, uint8_t *bspace, size_t bspace_bytes,
    uint8_t *shelf, size_t shelf_bytes, uint32_t sheets, uint32_t role, uint32_t trainee, uint32_t run, uint32_t grade,
    uint8_t *page, size_t page_bytes);

#ifdef __cplusplus
}
#endif

#endif
