/* Counts what each call copies: pages, which are to be those of the rule, and the record by its longest list, of 512 bytes, with what lies beside it. The linker puts the
 * two functions below between the library and the C library's. Largest page size and cache, 20,000 random calls. */
#include "clash.h"
#include <stdio.h>
#include <stdlib.h>
#include <string.h>

enum { PAGE = 2048, PER_BLOCK = 64, BLOCKS = 64, SLOTS = 128, FRAMES = 8, PAGES = PER_BLOCK * BLOCKS, CALLS = 20000 };
enum kind { READ = 1, WRITE = 4, STEP = 12, FLUSH = 13, KINDS = 14 };

static const clash_sizes sizes = { PAGE, PER_BLOCK, BLOCKS, SLOTS, FRAMES, 1000000 };
static const clash_options options = { 0, 0, 0, 0 };
static uint8_t flash[PAGES * PAGE], pspace[SLOTS * PAGE], bspace[FRAMES * PER_BLOCK * PAGE], none[1], page[PAGE];
static uint32_t wear[BLOCKS];
static long moves, copies;

void *__real_memmove(void *to, const void *from, size_t bytes);
void *__real_memcpy(void *to, const void *from, size_t bytes);

static void count(size_t bytes) {
    if (bytes % PAGE == 0) moves += bytes / PAGE; /* merge reads move several pages at once */
    copies += bytes >= SLOTS * sizeof(uint32_t) && bytes <= sizeof(clash_cache);
}

void *__wrap_memmove(void *to, const void *from, size_t bytes) {
    count(bytes);
    return __real_memmove(to, from, bytes);
}

void *__wrap_memcpy(void *to, const void *from, size_t bytes) {
    count(bytes);
    return __real_memcpy(to, from, bytes);
}

/* A store without options has no codes, no marks and no shelf. */
#define LENT flash, sizeof flash, none, 0, none, 0, wear, BLOCKS, pspace, sizeof pspace, bspace, sizeof bspace, none, 0

static clash_reply call(enum kind kind, clash_cache cache, uint32_t n) {
    moves = copies = 0;
    switch (kind) {
    case READ: return clash_read(cache, LENT, n, page, PAGE);
    case WRITE: return clash_write(cache, LENT, n, page, PAGE);
    case STEP: return clash_step(cache, LENT);
    default: return clash_flush(cache, LENT);
    }
}

static long vacant(const clash_cache *cache) {
    long i, found = 0;
    for (i = 0; i < SLOTS; i++) found += cache->directory.slots[i] == CLASH_VACANT;
    return found;
}

/* Way 6: those that change places without meeting. What meets is exchanged and not copied. */
static long unmet(const clash_directory *before, const clash_directory *after) {
    long f, found = 0;
    for (f = 0; f < FRAMES; f++)
        if (before->frames[f] != after->frames[f]) found += __builtin_popcountll(before->valid[f] ^ after->valid[f]);
    return found;
}

/* The pages that the rule copies: the page buffer's, those that leave slots for a frame, merge reads and programs. */
static long due(enum kind kind, const clash_answer *a, const clash_cache *before, const clash_cache *after) {
    long left = vacant(after) - vacant(before), rewrites = a->rewrites;
    if (kind == READ || (kind == WRITE && a->way <= 3)) return 1;
    if (kind == WRITE && a->way == 6) return 1 + unmet(&before->directory, &after->directory);
    if (kind == WRITE) left += 2, rewrites = a->way == 7; /* a slot that was left, and the page buffer in it */
    return left + a->merged + rewrites * PER_BLOCK;
}

int main(void) {
    static const char *const names[KINDS] = { "", "read 1", "read 2", "read 3", "", "write 1", "write 2", "write 3", "write 4", "write 5",
        "write 6", "write 7", "step", "flush" };
    long most[KINDS] = { 0 }, wrong = 0;
    clash_reply reply = clash_open(sizes, options, LENT);
    uint32_t i, state = 1;
    for (i = 0; i < CALLS; i++) {
        clash_cache before = reply.cache;
        enum kind kind;
        state = state * 1664525u + 1013904223u;
        kind = i % 1500 == 1499 ? FLUSH : i % 400 == 399 ? STEP : state >> 30 == 0 ? READ : WRITE;
        reply = call(kind, before, (state >> 8) % (i % 3 == 0 ? PAGES : i % 6 == 1 ? 2048 : 600));
        if (reply.answer.refusal != CLASH_ACCEPTED) return 1;
        wrong += moves != due(kind, &reply.answer, &before, &reply.cache);
        if (kind == READ || kind == WRITE) kind += kind == READ ? reply.answer.way - 1 : reply.answer.way;
        if (most[kind] < copies) most[kind] = copies;
    }
    puts("call     copies of the record");
    for (i = 1; i < KINDS; i++)
        if (*names[i]) printf("%-8s %21ld\n", names[i], most[i]);
    printf("%d calls, %ld of them copied other pages than the rule's\n", CALLS, wrong);
    return wrong != 0;
}
