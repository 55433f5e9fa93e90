/* Keeps a chip image in a file: writes runs of pages, flushes, closes, opens again, reads back and verifies.
 * The image is the flash and then the wear; the cache itself lives only as long as the program. */
#include "clash_store.h"
#include <stdio.h>
#include <stdlib.h>
#include <string.h>

enum { PAGE = 256, PER_BLOCK = 16, BLOCKS = 64, SLOTS = 32, FRAMES = 4, PAGES = PER_BLOCK * BLOCKS };

static const clash_sizes sizes = { PAGE, PER_BLOCK, BLOCKS, SLOTS, FRAMES, 100000 };
static const clash_options options = { CLASH_LRU, 0, 0, 0 };
static uint8_t flash[CLASH_FLASH_BYTES(PAGE, PER_BLOCK, BLOCKS)];
static uint8_t pspace[CLASH_PSPACE_BYTES(PAGE, SLOTS)], bspace[CLASH_BSPACE_BYTES(PAGE, PER_BLOCK, FRAMES)];
static uint32_t wear[BLOCKS];
static clash_store store;

/* A store without options has no codes, no marks and no shelf: these stay NULL. */
static void lend(void) {
    store.flash = flash;
    store.flash_bytes = sizeof flash;
    store.wear = wear;
    store.wear_count = BLOCKS;
    store.pspace = pspace;
    store.pspace_bytes = sizeof pspace;
    store.bspace = bspace;
    store.bspace_bytes = sizeof bspace;
}

/* Gives the answer of an accepted call, and stops at a refusal. */
static clash_answer done(clash_answer a, const char *what) {
    if (a.refusal != CLASH_ACCEPTED) {
        fprintf(stderr, "%s: refused %u: %s\n", what, a.refusal, clash_refusal_text(a.refusal));
        exit(1);
    }
    return a;
}

static void load(const char *image) {
    FILE *f = fopen(image, "rb");
    if (!f || fread(flash, 1, sizeof flash, f) != sizeof flash || fread(wear, 4, BLOCKS, f) != BLOCKS) {
        perror(image);
        exit(1);
    }
    fclose(f);
}

static void save(const char *image) {
    FILE *f = fopen(image, "wb");
    if (!f || fwrite(flash, 1, sizeof flash, f) != sizeof flash || fwrite(wear, 4, BLOCKS, f) != BLOCKS || fclose(f)) {
        perror(image);
        exit(1);
    }
}

/* What page n of run r holds. */
static void fill(uint8_t *page, uint32_t n, uint32_t r) {
    for (uint32_t i = 0; i < PAGE; i++) page[i] = (uint8_t)(n * 31 + r * 7 + i);
}

int main(int argc, char **argv) {
    const char *image = argc > 1 ? argv[1] : "chip.image";
    uint8_t page[PAGE], want[PAGE];
    uint32_t run, n, erased = 0;

    memset(flash, 255, sizeof flash);
    lend();
    done(clash_store_open(&store, sizes, options), "open");
    for (run = 0; run < 3; run++)
        for (n = run; n < PAGES; n += 3 + run) {
            fill(page, n, run);
            erased += done(clash_store_write(&store, n, page), "write").block != CLASH_VACANT;
        }
    clash_answer a = done(clash_store_flush(&store), "flush");
    printf("wrote 3 runs: %u blocks erased, then a flush of %u\n", erased, a.rewrites);
    save(image);

    memset(flash, 0, sizeof flash);
    memset(wear, 0, sizeof wear);
    load(image);
    done(clash_store_open(&store, sizes, options), "open again");
    for (n = 0; n < PAGES; n++) {
        memset(want, 255, PAGE);
        for (run = 0; run < 3; run++)
            if (n >= run && (n - run) % (3 + run) == 0) fill(want, n, run);
        done(clash_store_read(&store, n, page), "read");
        if (memcmp(page, want, PAGE)) {
            fprintf(stderr, "page %u differs\n", n);
            return 1;
        }
    }
    printf("read back %u pages: all as written\n", (unsigned)PAGES);
    return 0;
}
