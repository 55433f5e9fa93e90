/* The calls of clash_runs.h with fewer arguments: over the struct of clash_store.h, with one that says who calls.
 *
 *   clash_caller trainee = { 16, CLASH_TRAINEE, 7 };
 *   clash_run_answer a = clash_store_run_add(&store, trainee, sample, first, count, page);
 *   if (a.answer.refusal == CLASH_ACCEPTED) a = clash_store_run_look(&store, trainee, a.run, page);
 *
 * A `page` has page_size bytes, which cannot be checked; NULL is refused 2. These functions are not part of what is proved: they pass
 * arguments on and keep the record. */
#ifndef CLASH_STORE_RUNS_H
#define CLASH_STORE_RUNS_H

#include "clash_runs.h"
#include "clash_store.h"

/* Who calls, of a catalogue of so many sheets. */
typedef struct {
    uint32_t sheets;
    uint32_t role;
    uint32_t trainee;
} clash_caller;

/* What a refusal of the catalogue means, in a few words. */
static inline const char *clash_run_refusal_text(uint32_t refusal) {
    switch (refusal) {
    case CLASH_SIZE: return "a page is too small for a sheet, or the number of sheets is beyond its limits";
    case CLASH_FULL: return "there is no room for another run";
    case CLASH_UNKNOWN: return "there is no such run";
    case CLASH_PAGES: return "a page that the run cannot have, or a mark above 100";
    case CLASH_ROLE: return "the role may not do this";
    case CLASH_REPLACED: return "another run replaces this one";
    default: return clash_refusal_text(refusal);
    }
}

/* Keeps the record of a reply, and gives the answer. */
static inline clash_run_answer clash_store_run_next(clash_store *store, clash_run_reply reply) {
    store->cache = reply.cache;
    return reply.answer;
}

#define CLASH_CALLER caller.sheets, caller.role, caller.trainee
#define CLASH_RUN_PAGE CLASH_LEND(uint8_t, page, store->cache.sizes.page_size)

/* The sheet of a run as the caller sees it, and the current run. */
static inline clash_run_answer clash_store_run_look(clash_store *store, clash_caller caller, uint32_t run, uint8_t *page) {
    return clash_store_run_next(store, clash_run_look(store->cache, CLASH_LENT, CLASH_CALLER, run, CLASH_RUN_PAGE));
}

/* The run at a position, from 0 in the order of the sheets. */
static inline clash_run_answer clash_store_run_list(clash_store *store, clash_caller caller, uint32_t position, uint8_t *page) {
    return clash_store_run_next(store, clash_run_list(store->cache, CLASH_LENT, CLASH_CALLER, position, CLASH_RUN_PAGE));
}

/* Fills page with the run's page of this index, from 0. */
static inline clash_run_answer clash_store_run_read(
    clash_store *store, clash_caller caller, uint32_t run, uint32_t index, uint8_t *page) {
    return clash_store_run_next(store, clash_run_read(store->cache, CLASH_LENT, CLASH_CALLER, run, index, CLASH_RUN_PAGE));
}

/* Adds a run of count pages from page first on, and leaves its sheet in page. */
static inline clash_run_answer clash_store_run_add(
    clash_store *store, clash_caller caller, uint32_t sample, uint32_t first, uint32_t count, uint8_t *page) {
    return clash_store_run_next(store, clash_run_add(store->cache, CLASH_LENT, CLASH_CALLER, sample, first, count, CLASH_RUN_PAGE));
}

/* The same for a run that replaces another. */
static inline clash_run_answer clash_store_run_replace(
    clash_store *store, clash_caller caller, uint32_t run, uint32_t sample, uint32_t first, uint32_t count, uint8_t *page) {
    return clash_store_run_next(store,
        clash_run_replace(store->cache, CLASH_LENT, CLASH_CALLER, run, sample, first, count, CLASH_RUN_PAGE));
}

/* Marks a run, 0 to 100, and leaves its sheet in page. */
static inline clash_run_answer clash_store_run_mark(clash_store *store, clash_caller caller, uint32_t run, uint32_t grade, uint8_t *page) {
    return clash_store_run_next(store, clash_run_mark(store->cache, CLASH_LENT, CLASH_CALLER, run, grade, CLASH_RUN_PAGE));
}

#undef CLASH_RUN_PAGE
#undef CLASH_CALLER

#endif
