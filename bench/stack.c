/* Measures the stack that each call needs: the call runs on a stack painted with one byte, and what it painted over is counted,
 * the caller's copies of the record included. Largest page size and cache, 6,000 random calls, then as many with a catalogue of 256
 * sheets; with the argument "coded" the store is coded, with "marked" marked, with a number it has so many shelf pages. */
#include "clash_rehearse.h"
#include "clash_runs.h"
#include <pthread.h>
#include <stdio.h>
#include <stdlib.h>
#include <string.h>

enum { PAGE = 2048, PER_BLOCK = 64, BLOCKS = 64, SLOTS = 128, FRAMES = 8, PAGES = PER_BLOCK * BLOCKS };
enum { STACK = 1 << 18, PAINT = 0xA5, CALLS = 6000 };
enum kind { NOTHING, OPEN, READ, WRITE, PART, BACK, STEP, FLUSH, ADD, LOOK, LIST, FETCH, REPLACE, MARK, REPORT, REHEARSE };
enum { SHEETS = 256 };

static const clash_sizes sizes = { PAGE, PER_BLOCK, BLOCKS, SLOTS, FRAMES, 1000000 };
static clash_options options = { 0, 0, 0, 0 };
static uint8_t flash[PAGES * PAGE], pspace[SLOTS * PAGE], bspace[FRAMES * PER_BLOCK * PAGE], page[PAGE], bytes[40];
static uint8_t codes[PAGES * (PAGE / 256) * 3], marks[PAGES], shelf[8 * PAGE];
static size_t codes_len, marks_len, shelf_len;
static uint32_t wear[BLOCKS], n;
static enum kind kind;
static clash_reply reply;
static clash_run_reply run;
static clash_report_reply report;
static clash_tallies tallies;

/* As large as a rehearsal takes them. */
static const clash_setting setting = { 64, 16, 32, 128, 8, 1000, 16, 1024, 200, 200, 1 };

#define LENT \
    flash, sizeof flash, codes, codes_len, marks, marks_len, wear, BLOCKS, pspace, sizeof pspace, bspace, sizeof bspace, shelf, shelf_len

/* Of all sheets, an examiner. */
#define WHO SHEETS, CLASH_EXAMINER, 0

static void *call(void *unused) {
    switch (kind) {
    case OPEN: reply = clash_open(sizes, options, LENT); break;
    case READ: reply = clash_read(reply.cache, LENT, n, page, PAGE); break;
    case WRITE: reply = clash_write(reply.cache, LENT, n, page, PAGE); break;
    case PART: reply = clash_part(reply.cache, LENT, n, 100, bytes, n % 41, page, PAGE); break;
    case BACK: reply = clash_take_back(reply.cache, LENT); break;
    case STEP: reply = clash_step(reply.cache, LENT); break;
    case FLUSH: reply = clash_flush(reply.cache, LENT); break;
    case ADD: run = clash_run_add(reply.cache, LENT, WHO, 1, n, 1, page, PAGE); break;
    case LOOK: run = clash_run_look(reply.cache, LENT, WHO, n % SHEETS, page, PAGE); break;
    case LIST: run = clash_run_list(reply.cache, LENT, WHO, n % SHEETS, page, PAGE); break;
    case FETCH: run = clash_run_read(reply.cache, LENT, WHO, n % SHEETS, 0, page, PAGE); break;
    case REPLACE: run = clash_run_replace(reply.cache, LENT, WHO, n % SHEETS, 1, n, 1, page, PAGE); break;
    case MARK: run = clash_run_mark(reply.cache, LENT, WHO, n % SHEETS, 50, page, PAGE); break;
    case REPORT: report = clash_report(reply.cache, LENT); break;
    case REHEARSE: tallies = clash_rehearse(setting); break;
    case NOTHING: break;
    }
    if (kind >= ADD && kind <= MARK) reply.cache = run.cache;
    return unused;
}

/* The bytes of the stack that a thread with this one call has used. */
static size_t used(enum kind what) {
    static uint8_t *stack;
    pthread_attr_t attributes;
    pthread_t thread;
    size_t i = 0;
    if (!stack) stack = aligned_alloc(4096, STACK);
    memset(stack, PAINT, STACK);
    kind = what;
    pthread_attr_init(&attributes);
    if (pthread_attr_setstack(&attributes, stack, STACK) || pthread_create(&thread, &attributes, call, NULL)) exit(1);
    pthread_join(thread, NULL);
    while (i < STACK && stack[i] == PAINT) i++;
    return STACK - i;
}

static void keep(size_t *most, size_t now) {
    if (*most < now) *most = now;
}

/* The code of a chunk of zeros is 255 in each byte. */
static void set_options(const char *word) {
    uint32_t shelf_pages = (uint32_t)atoi(word);
    options.coded = !strcmp(word, "coded");
    options.marked = !strcmp(word, "marked");
    options.shelf_pages = shelf_pages;
    codes_len = options.coded ? sizeof codes : 0;
    marks_len = options.marked ? sizeof marks : 0;
    shelf_len = shelf_pages * PAGE;
    memset(codes, 255, sizeof codes);
}

/* Taking back what stands on the shelf, or of some page in its place: so it goes every way. */
static size_t used_back(void) {
    uint32_t latest = options.shelf_pages;
    while (latest > 0 && reply.cache.entries[latest - 1] == CLASH_VACANT) latest--;
    if (latest > 0 && n % 2) reply.cache.entries[latest - 1] = n;
    return latest > 0 ? used(BACK) : 0;
}

/* The six calls of the catalogue, among writes of other pages. All pages hold zeros before, and a sheet of zeros is empty. */
static void used_by_runs(size_t none, uint32_t state) {
    static const char *const names[] = { "add", "look", "list", "fetch", "replace", "mark" };
    size_t most[6] = { 0 };
    uint32_t i, accepted[6] = { 0 }, rewrites = 0;
    for (i = 0; i < CALLS; i++) {
        state = state * 1664525u + 1013904223u;
        n = SHEETS + (state >> 8) % (PAGES - SHEETS);
        if (i % 12 > 5) {
            used(WRITE);
            continue;
        }
        keep(&most[i % 12], used((enum kind)(ADD + i % 12)) - none);
        accepted[i % 12] += run.answer.answer.refusal == CLASH_ACCEPTED;
        rewrites += run.answer.answer.way == 7;
    }
    for (i = 0; i < 6; i++) {
        if (accepted[i] == 0 || rewrites == 0) exit(1);
        printf("%-7s %zu\n", names[i], most[i]);
    }
}

int main(int words, char **word) {
    size_t none, open, read[4] = { 0 }, write[8] = { 0 }, part[8] = { 0 }, back[8] = { 0 }, step = 0, flush = 0;
    uint32_t i, state = 1;
    set_options(words > 1 ? word[1] : "");
    none = used(NOTHING);
    open = used(OPEN) - none;
    for (i = 0; i < CALLS; i++) {
        state = state * 1664525u + 1013904223u;
        n = (state >> 8) % (i % 3 == 0 ? PAGES : i % 6 == 1 ? 2048 : 600);
        if (i % 1500 == 1499) keep(&flush, used(FLUSH) - none);
        else if (i % 400 == 399) keep(&step, used(STEP) - none);
        else if (state >> 29 == 0) { size_t u = used(READ) - none; keep(&read[reply.answer.way], u); }
        else if (state >> 29 < 4) { size_t u = used(PART) - none; keep(&part[reply.answer.way], u); }
        else if (state >> 28 == 8 && options.shelf_pages) { size_t u = used_back(); if (u) keep(&back[reply.answer.way], u - none); }
        else { size_t u = used(WRITE) - none; keep(&write[reply.answer.way], u); }
        if (reply.answer.refusal != CLASH_ACCEPTED) return 1;
    }
    printf("open    %zu\n", open);
    for (i = 1; i <= 3; i++) printf("read %u  %zu\n", i, read[i]);
    for (i = 1; i <= 7; i++) printf("write %u %zu\n", i, write[i]);
    for (i = 0; i <= 7; i++) printf("part %u  %zu\n", i, part[i]);
    for (i = 1; i <= 7; i++) printf("back %u  %zu\n", i, back[i]);
    printf("step    %zu\nflush   %zu\n", step, flush);
    used_by_runs(none, state);
    printf("report  %zu\n", used(REPORT) - none);
    printf("class   %zu\n", used(REHEARSE) - none);
    return report.refusal || tallies.refusal;
}
