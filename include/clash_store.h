/* The calls of clash.h with fewer arguments: a struct has the record and what is lent, and each call takes a pointer to it.
 *
 *   static uint8_t flash[CLASH_FLASH_BYTES(256, 16, 64)], ...;
 *   clash_store store;
 *   memset(&store, 0, sizeof store);
 *   store.flash = flash;  store.flash_bytes = sizeof flash;  ...
 *   clash_answer a = clash_store_open(&store, sizes, options);
 *   if (a.refusal == CLASH_ACCEPTED) a = clash_store_write(&store, n, page);
 *
 * Set the buffers before the opening, and leave store.cache to the calls. Buffers of options that the store does not have are left
 * NULL and 0. A buffer that is NULL counts as one of length 0, so that one which is needed is refused 2. A `page` has page_size bytes,
 * which cannot be checked; NULL is refused 2. These functions are not part of what is proved: they pass arguments on and keep the
 * record. */
#ifndef CLASH_STORE_H
#define CLASH_STORE_H

#include "clash.h"

/* How long buffers are, for arrays: S bytes a page, K pages a block, N blocks, P slots, B frames. Wear has N numbers. */
#define CLASH_FLASH_BYTES(S, K, N) ((size_t)(N) * (size_t)(K) * (size_t)(S))
#define CLASH_CODES_BYTES(S, K, N) ((size_t)(N) * (size_t)(K) * ((size_t)(S) / 256 * 3))
#define CLASH_MARKS_BYTES(K, N) ((size_t)(N) * (size_t)(K))
#define CLASH_PSPACE_BYTES(S, P) ((size_t)(P) * (size_t)(S))
#define CLASH_BSPACE_BYTES(S, K, B) ((size_t)(B) * (size_t)(K) * (size_t)(S))

#define CLASH_SHELF_BYTES(S, H) ((size_t)(H) * (size_t)(S)) /* H shelf pages */

/* The same of sizes and options that an opening takes. */
static inline size_t clash_flash_bytes(clash_sizes z) {
    return CLASH_FLASH_BYTES(z.page_size, z.pages_per_block, z.blocks);
}

static inline size_t clash_codes_bytes(clash_sizes z, clash_options o) {
    return o.coded == 1 ? CLASH_CODES_BYTES(z.page_size, z.pages_per_block, z.blocks) : 0;
}

static inline size_t clash_marks_bytes(clash_sizes z, clash_options o) {
    return o.marked == 1 ? CLASH_MARKS_BYTES(z.pages_per_block, z.blocks) : 0;
}

static inline size_t clash_pspace_bytes(clash_sizes z) {
    return CLASH_PSPACE_BYTES(z.page_size, z.slots);
}

static inline size_t clash_bspace_bytes(clash_sizes z) {
    return CLASH_BSPACE_BYTES(z.page_size, z.pages_per_block, z.frames);
}

static inline size_t clash_shelf_bytes(clash_sizes z, clash_options o) {
    return CLASH_SHELF_BYTES(z.page_size, o.shelf_pages);
}

/* What a refusal means, in a few words. */
static inline const char *clash_refusal_text(uint32_t refusal) {
    switch (refusal) {
    case CLASH_ACCEPTED: return "accepted";
    case CLASH_SIZE: return "a size, the wear limit or an option is beyond its limits";
    case CLASH_BUFFER: return "a lent buffer has another length than sizes and options ask for, or a part write reaches past the page";
    case CLASH_OVERWORN: return "a wear entry is above the wear limit";
    case CLASH_RECORD: return "the record is not sound";
    case CLASH_PAGE: return "there is no such page";
    case CLASH_WORN: return "a block that has to be rewritten is worn";
    case CLASH_UNREADABLE: return "a flash page cannot be read by its codes";
    case CLASH_EMPTY: return "there is no write on the shelf to take back";
    case CLASH_TORN: return "a flash page was erased and not programmed again";
    default: return "no refusal of this store";
    }
}

/* An open store, or one to be opened. A copy of it is not a second store: of two copies only the one that made the last call has the
 * record of the buffers. */
typedef struct {
    clash_cache cache;
    uint8_t *flash;
    size_t flash_bytes;
    uint8_t *codes;
    size_t codes_bytes;
    uint8_t *marks;
    size_t marks_bytes;
    uint32_t *wear;
    size_t wear_count;
    uint8_t *pspace;
    size_t pspace_bytes;
    uint8_t *bspace;
    size_t bspace_bytes;
    uint8_t *shelf;
    size_t shelf_bytes;
} clash_store;

/* Keeps the record of a reply, and gives the answer. */
static inline clash_answer clash_store_next(clash_store *store, clash_reply reply) {
    store->cache = reply.cache;
    return reply.answer;
}

/* A pointer and a length to lend: NULL goes as some other address, with length 0. clash_store_runs.h uses both too. */
#define CLASH_LEND(type, pointer, count) (pointer) ? (pointer) : (type *)(void *)store, (pointer) ? (count) : 0
#define CLASH_LENT \
    CLASH_LEND(uint8_t, store->flash, store->flash_bytes), CLASH_LEND(uint8_t, store->codes, store->codes_bytes), \
    CLASH_LEND(uint8_t, store->marks, store->marks_bytes), CLASH_LEND(uint32_t, store->wear, store->wear_count), \
    CLASH_LEND(uint8_t, store->pspace, store->pspace_bytes), CLASH_LEND(uint8_t, store->bspace, store->bspace_bytes), \
    CLASH_LEND(uint8_t, store->shelf, store->shelf_bytes)

/* Changes no buffer. Refused, it leaves the blank record. `torn` is the number of torn blocks. */
static inline clash_answer clash_store_open(clash_store *store, clash_sizes sizes, clash_options options) {
    return clash_store_next(store, clash_open(sizes, options, CLASH_LENT));
}

/* Fills page with page n. */
static inline clash_answer clash_store_read(clash_store *store, uint32_t n, uint8_t *page) {
    return clash_store_next(store, clash_read(store->cache, CLASH_LENT, n, CLASH_LEND(uint8_t, page, store->cache.sizes.page_size)));
}

/* Stores page as page n. */
static inline clash_answer clash_store_write(clash_store *store, uint32_t n, const uint8_t *page) {
    return clash_store_next(store, clash_write(store->cache, CLASH_LENT, n,
        CLASH_LEND(const uint8_t, page, store->cache.sizes.page_size)));
}

/* Stores count bytes in page n, from its byte first on, and fills page with the page that comes of it. */
static inline clash_answer clash_store_part(
    clash_store *store, uint32_t n, uint32_t first, const uint8_t *bytes, size_t count, uint8_t *page) {
    return clash_store_next(store, clash_part(store->cache, CLASH_LENT, n, first, CLASH_LEND(const uint8_t, bytes, count),
        CLASH_LEND(uint8_t, page, store->cache.sizes.page_size)));
}

/* Takes the latest write back whose earlier page is on the shelf. */
static inline clash_answer clash_store_take_back(clash_store *store) {
    return clash_store_next(store, clash_take_back(store->cache, CLASH_LENT));
}

/* Rewrites one block that has pages cached; `rewrites` is 0 where there is none. */
static inline clash_answer clash_store_step(clash_store *store) {
    return clash_store_next(store, clash_step(store->cache, CLASH_LENT));
}

/* Rewrites every block that has pages cached. */
static inline clash_answer clash_store_flush(clash_store *store) {
    return clash_store_next(store, clash_flush(store->cache, CLASH_LENT));
}

/* The wear in whole figures. */
static inline clash_report_reply clash_store_report(clash_store *store) {
    clash_report_reply reply = clash_report(store->cache, CLASH_LENT);
    store->cache = reply.cache;
    return reply;
}

#endif
