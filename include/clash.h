/* The page store for C: the calls of the proved crate clash_c (target/staticlib/libclash_c.a, x86-64).
 *
 * A call takes the record by value and gives the next one with its answer; keep that one for the next call. The caller owns
 * all memory and lends it for the time of a call: a pointer and the number of elements, in the order
 * flash, codes, marks, wear, p-space, b-space, shelf. Nothing is kept of them between calls. No two of the buffers of a call may
 * overlap, `page` and `bytes` included. clash_store.h has a struct of them, and calls with fewer arguments.
 *
 *   flash    blocks * pages_per_block * page_size bytes, the chip
 *   codes    0 bytes; of a coded store 3 for each 256 bytes of flash, those of an erased page 255
 *   marks    0 bytes; of a marked store one for each page: 0 where it is programmed, 255 where it was erased and not programmed since.
 *            A chip is delivered with all marks 0
 *   wear     blocks numbers: how often each block was erased (aligned as uint32_t)
 *   pspace   slots * page_size bytes
 *   bspace   frames * pages_per_block * page_size bytes
 *   shelf    shelf_pages * page_size bytes
 *   page     page_size bytes, for read, write and part
 *
 * No pointer may be NULL, also where the length is 0: the archive is compiled for pointers that are not, and what it does with one is
 * not defined. Lend the address of any byte (clash_store.h does).
 * A buffer of another length is refused, and a refused call changes nothing: neither the record nor a byte lent. */
#ifndef CLASH_H
#define CLASH_H

#include <stddef.h>
#include <stdint.h>

#ifdef __cplusplus
extern "C" {
#endif

/* Goes up when the record, an answer or a call takes another shape. Version 1 had neither options nor this number, version 2 no
 * `mended`, version 3 no `torn`. */
#define CLASH_VERSION 4

/* No page, no block. */
#define CLASH_VACANT 4294967295u

/* Why a call is turned down; 0 is an accepted call. 9 to 13 are the catalogue's (clash_runs.h). */
enum {
    CLASH_ACCEPTED = 0,
    CLASH_SIZE = 1,       /* open: a size, the wear limit or an option is beyond its limits */
    CLASH_BUFFER = 2,     /* a lent buffer has another length than sizes and options ask for; part: the bytes reach past the page */
    CLASH_OVERWORN = 3,   /* open, report: a wear entry is above the wear limit */
    CLASH_RECORD = 4,     /* the record is not sound; the blank one is not */
    CLASH_PAGE = 5,       /* there is no such page */
    CLASH_WORN = 6,       /* a rewrite is due for block `block`, whose wear has reached the limit */
    CLASH_UNREADABLE = 7, /* of a coded store: a flash page that the call reads or merges cannot be read by its codes */
    CLASH_EMPTY = 8,      /* take_back: no write is on the shelf */
    CLASH_TORN = 14       /* of a marked store: a flash page that the call reads or merges has a mark that is not 0 */
};

typedef struct {
    uint32_t page_size;       /* 1 to 2,048 */
    uint32_t pages_per_block; /* 2 to 64 */
    uint32_t blocks;          /* 1 to 4,096 */
    uint32_t slots;           /* 1 to 128 */
    uint32_t frames;          /* 1 to 8 */
    uint32_t wear_limit;      /* 1 to 1,000,000 */
} clash_sizes;

/* Which frame is old: the one that way 7 rewrites, that a step takes, and that way 6 takes of those with the fewest pages. */
enum {
    CLASH_LRU = 0,  /* the least recent; hits, joins and fillings make a frame recent */
    CLASH_FIFO = 1, /* the same, where only being filled makes a frame recent */
    CLASH_LFU = 2   /* the one with the fewest uses, among equals the least recent */
};

/* What a store may have beside its sizes. */
typedef struct {
    uint32_t policy;      /* CLASH_LRU, CLASH_FIFO or CLASH_LFU */
    uint32_t coded;       /* 1: pages have codes, and page_size is a multiple of 256; 0: they have none */
    uint32_t shelf_pages; /* 0 to 8: so many earlier pages are kept, for clash_take_back; 0: none */
    uint32_t marked;      /* 1: pages have marks, by which an opening tells the blocks whose rewrite was cut; 0: they have none */
} clash_options;

typedef struct {
    uint8_t recency[8];
    uint64_t valid[8];
    uint32_t uses[8]; /* how often each frame was used since it was filled, 0 where it is vacant */
    uint32_t frames[8];
    uint32_t slots[128];
} clash_directory;

/* The cache record: 720 bytes. */
typedef struct {
    clash_sizes sizes;
    clash_options options;
    uint32_t entries[8]; /* of the shelf: the page whose earlier contents shelf page i has, oldest first, then CLASH_VACANT */
    clash_directory directory;
} clash_cache;

/* What a call does not answer is 0, and block is CLASH_VACANT wherever no block is meant: in an opening, a read and a flush, in a write
 * that erased none, a step that found nothing cached, and every refusal but 6. All but refusal and block is 0 where a call is refused. */
typedef struct {
    uint32_t refusal;
    uint32_t way;      /* read: 1 slot, 2 frame, 3 flash; write, take_back: 1 to 7; part: as write, 0 without bytes */
    uint32_t block;    /* write, part, take_back: the block erased; step: the block rewritten; refusal 6: the worn block */
    uint32_t rewrites; /* flush: blocks rewritten; step: 1, or 0 where nothing was cached */
    uint32_t merged;   /* merge reads of write, part, take_back, step and flush */
    uint32_t mended;   /* chunks of 256 bytes that the codes mended, data or code, of the flash pages that the call read, each page once */
    uint32_t torn;     /* open: blocks with a page whose mark is not 0; 0 of a store without marks */
} clash_answer;

typedef struct {
    clash_cache cache;
    clash_answer answer;
} clash_reply;

/* What a report answers: the record as it was, and the wear in whole figures. All but the refusal is 0 where it is refused. */
typedef struct {
    clash_cache cache;
    uint32_t refusal;
    uint32_t largest; /* the wear of the block that was erased most */
    uint64_t total;   /* erasures of all blocks */
    uint64_t spread;  /* blocks times the sum of squares, minus the total squared: 0 where all blocks are worn alike */
} clash_report_reply;

/* The layout that the archive was compiled for. */
#if defined(__cplusplus) && __cplusplus >= 201103L
#define CLASH_ASSERT(condition, text) static_assert(condition, text)
#elif defined(__STDC_VERSION__) && __STDC_VERSION__ >= 201112L
#define CLASH_ASSERT(condition, text) _Static_assert(condition, text)
#else
#define CLASH_ASSERT(condition, text) extern char clash_assertion[(condition) ? 1 : -1]
#endif
CLASH_ASSERT(sizeof(size_t) == 8 && sizeof(void *) == 8, "the archive is for x86-64");
CLASH_ASSERT(sizeof(clash_sizes) == 24 && sizeof(clash_options) == 16 && sizeof(clash_directory) == 648, "the parts of the record");
CLASH_ASSERT(sizeof(clash_cache) == 720 && sizeof(clash_answer) == 28 && sizeof(clash_reply) == 752, "record, answer and reply");
CLASH_ASSERT(offsetof(clash_cache, options) == 24 && offsetof(clash_cache, entries) == 40, "options and entries in the record");
CLASH_ASSERT(offsetof(clash_cache, directory) == 72 && offsetof(clash_reply, answer) == 720, "directory and answer");
CLASH_ASSERT(offsetof(clash_directory, valid) == 8 && offsetof(clash_directory, uses) == 72, "valid sets and uses in the directory");
CLASH_ASSERT(offsetof(clash_directory, frames) == 104 && offsetof(clash_directory, slots) == 136, "frames and slots in the directory");
CLASH_ASSERT(offsetof(clash_answer, block) == 8 && offsetof(clash_answer, mended) == 20, "block and mends in the answer");
CLASH_ASSERT(offsetof(clash_answer, torn) == 24, "torn blocks in the answer");
CLASH_ASSERT(sizeof(clash_report_reply) == 744 && offsetof(clash_report_reply, refusal) == 720, "the report");
CLASH_ASSERT(offsetof(clash_report_reply, total) == 728 && offsetof(clash_report_reply, spread) == 736, "its figures");

/* Changes no buffer. A refused opening gives the blank record. Of a marked store it answers how many blocks are torn: those whose
 * rewrite was cut between its erasure and its last page. */
clash_reply clash_open(clash_sizes sizes, clash_options options,
    const uint8_t *flash, size_t flash_bytes, const uint8_t *codes, size_t codes_bytes, const uint8_t *marks, size_t marks_bytes,
    const uint32_t *wear, size_t wear_count, const uint8_t *pspace, size_t pspace_bytes, const uint8_t *bspace, size_t bspace_bytes,
    const uint8_t *shelf, size_t shelf_bytes);

/* Fills page with page n. Refused 14 where it is torn, until it is written. A flipped bit is mended in page, and stays in flash until its
 * block is rewritten. */
clash_reply clash_read(clash_cache cache,
    const uint8_t *flash, size_t flash_bytes, const uint8_t *codes, size_t codes_bytes, const uint8_t *marks, size_t marks_bytes,
    const uint32_t *wear, size_t wear_count, const uint8_t *pspace, size_t pspace_bytes, const uint8_t *bspace, size_t bspace_bytes,
    const uint8_t *shelf, size_t shelf_bytes, uint32_t n, uint8_t *page, size_t page_bytes);

/* Stores page as page n. Refused 6 only where every frame holds a worn block; the one named is the one that
 * the policy would take. With shelf pages, what page n held before is put on the shelf; the oldest leaves where all are in use. */
clash_reply clash_write(clash_cache cache,
    uint8_t *flash, size_t flash_bytes, uint8_t *codes, size_t codes_bytes, uint8_t *marks, size_t marks_bytes,
    uint32_t *wear, size_t wear_count, uint8_t *pspace, size_t pspace_bytes, uint8_t *bspace, size_t bspace_bytes,
    uint8_t *shelf, size_t shelf_bytes, uint32_t n, const uint8_t *page, size_t page_bytes);

/* Stores bytes in page n, from its byte first on, and fills page with the page that comes of it. Without bytes, and with first up to
 * page_size, it is accepted as way 0 and changes nothing; neither does a refused call, so that page is then as it was. */
clash_reply clash_part(clash_cache cache,
    uint8_t *flash, size_t flash_bytes, uint8_t *codes, size_t codes_bytes, uint8_t *marks, size_t marks_bytes,
    uint32_t *wear, size_t wear_count, uint8_t *pspace, size_t pspace_bytes, uint8_t *bspace, size_t bspace_bytes,
    uint8_t *shelf, size_t shelf_bytes, uint32_t n, uint32_t first,
    const uint8_t *bytes, size_t byte_count, uint8_t *page, size_t page_bytes);

/* Takes the latest write or part write back whose earlier page is on the shelf: stores that page, as a write does, and drops its entry.
 * The shelf is not changed. */
clash_reply clash_take_back(clash_cache cache,
    uint8_t *flash, size_t flash_bytes, uint8_t *codes, size_t codes_bytes, uint8_t *marks, size_t marks_bytes,
    uint32_t *wear, size_t wear_count, uint8_t *pspace, size_t pspace_bytes, uint8_t *bspace, size_t bspace_bytes,
    const uint8_t *shelf, size_t shelf_bytes);

/* Rewrites one block that has pages cached. */
clash_reply clash_step(clash_cache cache,
    uint8_t *flash, size_t flash_bytes, uint8_t *codes, size_t codes_bytes, uint8_t *marks, size_t marks_bytes,
    uint32_t *wear, size_t wear_count, const uint8_t *pspace, size_t pspace_bytes, uint8_t *bspace, size_t bspace_bytes,
    const uint8_t *shelf, size_t shelf_bytes);

/* Rewrites every block that has pages cached, or none where one of them is worn or has a page to merge that is unreadable or torn. */
clash_reply clash_flush(clash_cache cache,
    uint8_t *flash, size_t flash_bytes, uint8_t *codes, size_t codes_bytes, uint8_t *marks, size_t marks_bytes,
    uint32_t *wear, size_t wear_count, const uint8_t *pspace, size_t pspace_bytes, uint8_t *bspace, size_t bspace_bytes,
    const uint8_t *shelf, size_t shelf_bytes);

/* The wear in whole figures. Refused 4, then 2, then 3; changes nothing. The standard deviation of the blocks' wear is the square root of
 * the spread, divided by the number of blocks. */
clash_report_reply clash_report(clash_cache cache,
    const uint8_t *flash, size_t flash_bytes, const uint8_t *codes, size_t codes_bytes, const uint8_t *marks, size_t marks_bytes,
    const uint32_t *wear, size_t wear_count, const uint8_t *pspace, size_t pspace_bytes, const uint8_t *bspace, size_t bspace_bytes,
    const uint8_t *shelf, size_t shelf_bytes);

#ifdef __cplusplus
}
#endif

#endif
