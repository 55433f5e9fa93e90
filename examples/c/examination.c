/* An examination on a chip image in a file: a trainee adds a run and writes its pages by part writes of 40 bytes, a repeat injection
 * replaces it, the examiner looks and marks, the image is closed and opened again, and the mark is read back.
 * Links libclash_c.a and libcatalogue_c.a. The image is the flash and then the wear. */
#include "clash_store_runs.h"
#include <stdio.h>
#include <stdlib.h>
#include <string.h>

enum { PAGE = 256, PER_BLOCK = 16, BLOCKS = 64, SLOTS = 32, FRAMES = 4 };
enum { SHEETS = 16, READING = 40, PER_PAGE = PAGE / READING, SAMPLE = 4711, TRAINEE = 7, OTHER = 8 };

static const clash_sizes sizes = { PAGE, PER_BLOCK, BLOCKS, SLOTS, FRAMES, 100000 };
static const clash_options options = { CLASH_LRU, 0, 0, 0 };
static const clash_caller trainee = { SHEETS, CLASH_TRAINEE, TRAINEE }, other = { SHEETS, CLASH_TRAINEE, OTHER };
static const clash_caller tutor = { SHEETS, CLASH_TUTOR, TRAINEE }, examiner = { SHEETS, CLASH_EXAMINER, 0 };

static uint8_t flash[CLASH_FLASH_BYTES(PAGE, PER_BLOCK, BLOCKS)];
static uint8_t pspace[CLASH_PSPACE_BYTES(PAGE, SLOTS)], bspace[CLASH_BSPACE_BYTES(PAGE, PER_BLOCK, FRAMES)];
static uint32_t wear[BLOCKS];
static uint8_t page[PAGE];
static clash_store store;

static void expect(int holds, const char *what) {
    if (!holds) {
        fprintf(stderr, "not so: %s\n", what);
        exit(1);
    }
}

/* Gives the answer of an accepted call, and stops at a refusal. */
static clash_run_answer done(clash_run_answer a, const char *what) {
    if (a.answer.refusal != CLASH_ACCEPTED) {
        fprintf(stderr, "%s: refused %u: %s\n", what, a.answer.refusal, clash_run_refusal_text(a.answer.refusal));
        exit(1);
    }
    return a;
}

/* A call that has to be refused so. */
static void turned_down(clash_run_answer a, uint32_t refusal, const char *what) {
    expect(a.answer.refusal == refusal, what);
    printf("%s: refused %u, %s\n", what, refusal, clash_run_refusal_text(refusal));
}

static void open_store(void) {
    memset(&store, 0, sizeof store);
    store.flash = flash;
    store.flash_bytes = sizeof flash;
    store.wear = wear;
    store.wear_count = BLOCKS;
    store.pspace = pspace;
    store.pspace_bytes = sizeof pspace;
    store.bspace = bspace;
    store.bspace_bytes = sizeof bspace;
    expect(clash_store_open(&store, sizes, options).refusal == CLASH_ACCEPTED, "the store opens");
}

static void save(const char *image) {
    FILE *f = fopen(image, "wb");
    if (!f || fwrite(flash, 1, sizeof flash, f) != sizeof flash || fwrite(wear, 4, BLOCKS, f) != BLOCKS || fclose(f)) {
        perror(image);
        exit(1);
    }
}

static void load(const char *image) {
    FILE *f = fopen(image, "rb");
    if (!f || fread(flash, 1, sizeof flash, f) != sizeof flash || fread(wear, 4, BLOCKS, f) != BLOCKS) {
        perror(image);
        exit(1);
    }
    fclose(f);
}

/* Reading i of a run, as the detector gives it. */
static void detect(uint8_t *reading, uint32_t run, uint32_t i) {
    for (uint32_t j = 0; j < READING; j++) reading[j] = (uint8_t)(run * 61 + i * 17 + j);
}

/* Writes the pages of a run, 40 bytes at a time, as many as a page has room for. */
static void record(clash_run_sheet sheet) {
    uint8_t reading[READING];
    for (uint32_t i = 0; i < sheet.count * PER_PAGE; i++) {
        uint32_t n = sheet.first + i / PER_PAGE, first = i % PER_PAGE * READING;
        detect(reading, sheet.run, i);
        expect(clash_store_part(&store, n, first, reading, READING, page).refusal == CLASH_ACCEPTED, "a part write is accepted");
    }
    printf("run %u: %u part writes of %d bytes\n", sheet.run, sheet.count * PER_PAGE, READING);
}

/* Reads the pages of a run back, as whoever calls, and compares them. */
static void verify(clash_caller caller, clash_run_sheet sheet) {
    uint8_t reading[READING];
    for (uint32_t i = 0; i < sheet.count * PER_PAGE; i++) {
        if (i % PER_PAGE == 0) done(clash_store_run_read(&store, caller, sheet.run, i / PER_PAGE, page), "read of a run");
        detect(reading, sheet.run, i);
        expect(!memcmp(page + i % PER_PAGE * READING, reading, READING), "a run reads as recorded");
    }
    printf("run %u: its %u pages read as recorded\n", sheet.run, sheet.count);
}

static clash_run_sheet tell(clash_caller caller, const char *who, uint32_t run) {
    clash_run_answer a = done(clash_store_run_look(&store, caller, run, page), "look");
    printf("%s looks at run %u: trainee %u, sample %u, %u pages from page %u, ", who, run, a.sheet.trainee, a.sheet.sample,
        a.sheet.count, a.sheet.first);
    if (a.sheet.mark == CLASH_UNMARKED) printf("unmarked");
    else printf("mark %u", a.sheet.mark);
    if (a.sheet.replaces) printf(", replaces run %u", a.sheet.replaces);
    printf(", current run %u\n", a.current);
    return a.sheet;
}

/* A run by the trainee, and its repeat, which the tutor enters for the trainee. Gives the number of the repeat. */
static uint32_t inject(uint32_t *bad) {
    *bad = done(clash_store_run_add(&store, trainee, SAMPLE, SHEETS, 3, page), "add").run;
    printf("the trainee adds run %u of 3 pages\n", *bad);
    record(tell(trainee, "the trainee", *bad));
    turned_down(clash_store_run_replace(&store, trainee, *bad, SAMPLE, SHEETS + 3, 3, page), CLASH_ROLE, "the trainee replaces it");
    turned_down(clash_store_run_replace(&store, tutor, *bad, SAMPLE, SHEETS + 2, 3, page), CLASH_PAGES, "the tutor does, on its last page");
    uint32_t good = done(clash_store_run_replace(&store, tutor, *bad, SAMPLE, SHEETS + 3, 3, page), "replace").run;
    printf("the repeat injection is run %u: the tutor replaces run %u by it\n", good, *bad);
    record(tell(trainee, "the trainee", good));
    return good;
}

static void examine(uint32_t bad, uint32_t good) {
    verify(examiner, tell(examiner, "the examiner", good));
    expect(done(clash_store_run_look(&store, examiner, bad, page), "look").current == good, "the repeat is the current run");
    turned_down(clash_store_run_mark(&store, examiner, bad, 40, page), CLASH_REPLACED, "the examiner marks the replaced run");
    turned_down(clash_store_run_mark(&store, examiner, good, 101, page), CLASH_PAGES, "the examiner gives 101");
    turned_down(clash_store_run_mark(&store, tutor, good, 100, page), CLASH_ROLE, "the tutor marks");
    done(clash_store_run_mark(&store, examiner, good, 85, page), "mark");
    printf("the examiner marks run %u: 85\n", good);
}

int main(int argc, char **argv) {
    const char *image = argc > 1 ? argv[1] : "examination.image";
    uint32_t bad, good;

    memset(flash, 255, sizeof flash);
    open_store();
    good = inject(&bad);
    examine(bad, good);
    expect(clash_store_flush(&store).refusal == CLASH_ACCEPTED, "the flush is accepted");
    save(image);
    memset(flash, 0, sizeof flash);
    memset(wear, 0, sizeof wear);
    memset(pspace, 0, sizeof pspace);
    memset(bspace, 0, sizeof bspace);
    load(image);
    open_store();
    printf("the chip image is closed and opened again\n");

    clash_run_sheet sheet = tell(trainee, "the trainee", good);
    expect(sheet.mark == 85 && sheet.replaces == bad, "the mark is read back");
    sheet = tell(other, "another trainee", good);
    expect(sheet.mark == CLASH_UNMARKED && sheet.trainee == 0, "another trainee sees neither mark nor number");
    verify(trainee, sheet);
    verify(trainee, tell(trainee, "the trainee", bad));
    turned_down(clash_store_run_list(&store, trainee, 2, page), CLASH_UNKNOWN, "a third run is asked for");
    clash_caller nobody = { SHEETS, 3, TRAINEE };
    turned_down(clash_store_run_list(&store, nobody, 0, page), CLASH_ROLE, "someone of no role lists");
    return 0;
}
