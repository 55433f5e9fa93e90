/* Every call of clash_store.h on a small coded and marked store with two shelf pages, and refusals with their text; it says where an
 * answer is another than it must be. */
#include "clash_store.h"
#include <stdio.h>
#include <string.h>

enum { PAGE = 256, PER_BLOCK = 2, BLOCKS = 3, SLOTS = 2, FRAMES = 1, SHELF = 2 };

static uint8_t flash[CLASH_FLASH_BYTES(PAGE, PER_BLOCK, BLOCKS)], codes[CLASH_CODES_BYTES(PAGE, PER_BLOCK, BLOCKS)];
static uint8_t pspace[CLASH_PSPACE_BYTES(PAGE, SLOTS)], bspace[CLASH_BSPACE_BYTES(PAGE, PER_BLOCK, FRAMES)];
static uint8_t marks[CLASH_MARKS_BYTES(PER_BLOCK, BLOCKS)], shelf[CLASH_SHELF_BYTES(PAGE, SHELF)];
static uint32_t wear[BLOCKS];
static int wrong;

/* Says an answer, and whether it is the one that it must be. */
static void say(const char *call, clash_answer a, uint32_t refusal, uint32_t way, uint32_t rewrites, uint32_t mended) {
    int right = a.refusal == refusal && a.way == way && a.rewrites == rewrites && a.mended == mended;
    printf("%-28s refused %u, way %u, rewrites %u, merged %u, mended %u: %s%s\n", call, a.refusal, a.way, a.rewrites, a.merged, a.mended,
        clash_refusal_text(a.refusal), right ? "" : " (WRONG)");
    wrong += !right;
}

/* The same of an opening, which answers the torn blocks. */
static void say_open(const char *call, clash_answer a, uint32_t refusal, uint32_t torn) {
    say(call, a, refusal, 0, 0, 0);
    if (a.torn || torn) printf("%-28s torn blocks: %u%s\n", "", a.torn, a.torn == torn ? "" : " (WRONG)");
    wrong += a.torn != torn;
}

/* A page of one byte. */
static const uint8_t *bytes_of(int byte) {
    static uint8_t page[PAGE];
    memset(page, byte, sizeof page);
    return page;
}

int main(void) {
    clash_sizes sizes = { PAGE, PER_BLOCK, BLOCKS, SLOTS, FRAMES, 9 };
    clash_options options = { CLASH_LRU, 1, SHELF, 1 };
    clash_store store;
    clash_report_reply report;
    uint8_t page[PAGE], bytes[3] = { 1, 2, 3 };
    uint32_t n;

    memset(&store, 0, sizeof store);
    memset(flash, 255, sizeof flash);
    memset(codes, 255, sizeof codes);
    memset(page, 7, sizeof page);
    say_open("open, nothing lent", clash_store_open(&store, sizes, options), CLASH_BUFFER, 0);
    say("read, not open", clash_store_read(&store, 0, page), CLASH_RECORD, 0, 0, 0);

    store.flash = flash;
    store.flash_bytes = clash_flash_bytes(sizes);
    store.codes = codes;
    store.codes_bytes = clash_codes_bytes(sizes, options);
    store.marks = marks;
    store.marks_bytes = clash_marks_bytes(sizes, options);
    store.wear = wear;
    store.wear_count = sizes.blocks;
    store.pspace = pspace;
    store.pspace_bytes = clash_pspace_bytes(sizes);
    store.bspace = bspace;
    store.bspace_bytes = clash_bspace_bytes(sizes);
    store.shelf = shelf;
    store.shelf_bytes = clash_shelf_bytes(sizes, options);
    sizes.frames = 9;
    say_open("open, 9 frames", clash_store_open(&store, sizes, options), CLASH_SIZE, 0);
    sizes.frames = FRAMES;
    say_open("open", clash_store_open(&store, sizes, options), 0, 0);
    say("take back, nothing written", clash_store_take_back(&store), CLASH_EMPTY, 0, 0, 0);

    for (n = 0; n < 4; n += 2) say("write 0 and 2", clash_store_write(&store, n, page), 0, 3, 0, 0);
    say("write 4", clash_store_write(&store, 4, page), 0, 5, 0, 0);
    say("part of 4", clash_store_part(&store, 4, 10, bytes, 3, page), 0, 1, 0, 0);
    say("part of 4, no bytes", clash_store_part(&store, 4, 10, NULL, 0, page), 0, 0, 0, 0);
    say("part of 4, too far", clash_store_part(&store, 4, PAGE - 2, bytes, 3, page), CLASH_BUFFER, 0, 0, 0);
    say("write 6", clash_store_write(&store, 6, page), CLASH_PAGE, 0, 0, 0);
    say("write without a page", clash_store_write(&store, 1, NULL), CLASH_BUFFER, 0, 0, 0);
    say("read 4", clash_store_read(&store, 4, page), 0, 1, 0, 0);
    wrong += page[9] != 7 || memcmp(page + 10, bytes, 3) || page[13] != 7;
    say("write 4", clash_store_write(&store, 4, bytes_of(9)), 0, 1, 0, 0);
    say("take back the last write", clash_store_take_back(&store), 0, 1, 0, 0);
    say("read 4", clash_store_read(&store, 4, page), 0, 1, 0, 0);
    wrong += page[9] != 7 || memcmp(page + 10, bytes, 3) || page[13] != 7;
    say("step", clash_store_step(&store), 0, 0, 1, 0);
    say("flush", clash_store_flush(&store), 0, 0, 2, 0);
    say("step", clash_store_step(&store), 0, 0, 0, 0);

    report = clash_store_report(&store);
    printf("%-28s total %u, largest %u, spread %u\n", "report", (unsigned)report.total, report.largest, (unsigned)report.spread);
    wrong += report.refusal || report.total != 3 || report.largest != 1 || report.spread != 0;
    flash[5] ^= 1;
    say("read 0, a bit flipped", clash_store_read(&store, 0, page), 0, 3, 0, 1);
    wrong += page[5] != 7;
    flash[6] ^= 1;
    say("read 0, two bits flipped", clash_store_read(&store, 0, page), CLASH_UNREADABLE, 0, 0, 0);
    marks[3] = 255;
    say("read 3, torn", clash_store_read(&store, 3, page), CLASH_TORN, 0, 0, 0);
    say_open("open, a torn block", clash_store_open(&store, sizes, options), 0, 1);
    wear[2] = 9;
    say("write 5", clash_store_write(&store, 5, page), 0, 3, 0, 0);
    say("flush, a worn block", clash_store_flush(&store), CLASH_WORN, 0, 0, 0);
    wear[2] = 10;
    report = clash_store_report(&store);
    printf("%-28s refused %u\n", "report, wear above it", report.refusal);
    wrong += report.refusal != CLASH_OVERWORN;
    say_open("open, wear above the limit", clash_store_open(&store, sizes, options), CLASH_OVERWORN, 0);
    printf("%s\n", wrong ? "some answers are wrong" : "each answer is as it must be");
    return wrong != 0;
}
