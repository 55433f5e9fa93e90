/* What to do at start after a power loss, of a marked store. A flush is cut after each number of operations of the chip, as a battery that
 * falls out would do it; each time the store is opened again, the torn pages are found by their marks and written anew, block by block,
 * and every page is verified. The cuts are calls for tests (clash_cut.h, libcut_c.a); a product needs the function `start` alone. */
#include "clash_cut.h"
#include "clash_store.h"
#include <stdio.h>
#include <stdlib.h>
#include <string.h>

enum { PAGE = 64, PER_BLOCK = 4, BLOCKS = 8, SLOTS = 6, FRAMES = 2, PAGES = PER_BLOCK * BLOCKS };

static const clash_sizes sizes = { PAGE, PER_BLOCK, BLOCKS, SLOTS, FRAMES, 100000 };
static const clash_options options = { CLASH_LRU, 0, 0, 1 };
static uint8_t flash[CLASH_FLASH_BYTES(PAGE, PER_BLOCK, BLOCKS)], marks[CLASH_MARKS_BYTES(PER_BLOCK, BLOCKS)];
static uint8_t pspace[CLASH_PSPACE_BYTES(PAGE, SLOTS)], bspace[CLASH_BSPACE_BYTES(PAGE, PER_BLOCK, FRAMES)];
static uint32_t wear[BLOCKS];
static clash_store store;

static void lend(void) {
    store.flash = flash;
    store.flash_bytes = sizeof flash;
    store.marks = marks;
    store.marks_bytes = sizeof marks;
    store.wear = wear;
    store.wear_count = BLOCKS;
    store.pspace = pspace;
    store.pspace_bytes = sizeof pspace;
    store.bspace = bspace;
    store.bspace_bytes = sizeof bspace;
}

static void expect(int holds, const char *what) {
    if (!holds) {
        fprintf(stderr, "not so: %s\n", what);
        exit(1);
    }
}

static void done(clash_answer a, const char *what) {
    if (a.refusal != CLASH_ACCEPTED) {
        fprintf(stderr, "%s: refused %u: %s\n", what, a.refusal, clash_refusal_text(a.refusal));
        exit(1);
    }
}

/* What stands in for a page that is lost: another copy, where a program has one, or something that says so. */
static void lost(uint8_t *page, uint32_t n) {
    memset(page, 0, PAGE);
    page[0] = (uint8_t)n;
}

/* Opens the store. The torn pages of a block are written, with all other writes waiting, and a flush makes the block whole; then the next.
 * Answers how many pages were lost. */
static uint32_t start(void) {
    uint8_t page[PAGE];
    uint32_t n, pages = 0;
    clash_answer a = clash_store_open(&store, sizes, options);

    done(a, "open");
    if (a.torn == 0) return 0;
    for (n = 0; n < PAGES; n++) {
        if (marks[n] != 0) {
            lost(page, n);
            done(clash_store_write(&store, n, page), "write of a torn page");
            pages++;
        }
        if (n % PER_BLOCK == PER_BLOCK - 1) done(clash_store_flush(&store), "flush of a torn block");
    }
    a = clash_store_open(&store, sizes, options);
    done(a, "open again");
    expect(a.torn == 0, "no block is torn");
    return pages;
}

/* What page n holds before and after: pages of blocks 1, 4 and 6 are changed. */
static void fill(uint8_t *page, uint32_t n, int after) {
    uint32_t block = n / PER_BLOCK, changed = after && n % PER_BLOCK < 2 && (block == 1 || block == 4 || block == 6);
    memset(page, (int)(n + (changed ? 100 : 0)), PAGE);
}

/* A chip with all pages written, and a store with some of them written anew in its cache. */
static void prepare(void) {
    uint8_t page[PAGE];
    uint32_t n;

    memset(flash, 255, sizeof flash);
    memset(marks, 0, sizeof marks);
    memset(wear, 0, sizeof wear);
    done(clash_store_open(&store, sizes, options), "open");
    for (n = 0; n < PAGES; n++) {
        fill(page, n, 0);
        done(clash_store_write(&store, n, page), "write");
    }
    done(clash_store_flush(&store), "flush");
    for (n = 0; n < PAGES; n++) {
        fill(page, n, 1);
        if (page[0] != n) done(clash_store_write(&store, n, page), "write");
    }
}

/* Each page is as it was before or after the flush, or lost. */
static void verify(uint32_t pages) {
    uint8_t page[PAGE], before[PAGE], after[PAGE], none[PAGE];
    uint32_t n, found = 0;

    for (n = 0; n < PAGES; n++) {
        done(clash_store_read(&store, n, page), "read");
        fill(before, n, 0);
        fill(after, n, 1);
        lost(none, n);
        if (memcmp(page, before, PAGE) && memcmp(page, after, PAGE)) {
            expect(!memcmp(page, none, PAGE), "a page is as before, as after, or lost");
            found++;
        }
    }
    expect(found == pages, "so many pages are lost as were torn");
}

int main(void) {
    uint32_t operations, pages, all = 0, torn = 0;
    const uint32_t needed = 3 * (PER_BLOCK + 1); /* three blocks have pages cached */

    lend();
    for (operations = 0; operations <= needed; operations++) {
        prepare();
        store.cache = clash_cut_flush(store.cache, flash, sizeof flash, pspace, 0, marks, sizeof marks, wear, BLOCKS, pspace,
            sizeof pspace, bspace, sizeof bspace, pspace, 0, operations);
        pages = start();
        verify(pages);
        torn += pages != 0;
        all += pages;
    }
    printf("a flush cut after 0 to %u operations: %u times a block was torn, %u pages lost, all others as before or after\n",
        (unsigned)needed, (unsigned)torn, (unsigned)all);
    return 0;
}
