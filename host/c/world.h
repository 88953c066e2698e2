/* One domain and its guest over real memory, and the log of document 01 of what they do. */
#ifndef WORLD_H
#define WORLD_H

#include <stdio.h>
#include <string.h>

#include "evtchn_fifo_atomic.h"

#define WORLD_ENTRIES 4096u

typedef struct world {
    evtchn_fifo_domain domain;
    evtchn_fifo_guest guest;
    uint16_t ledger[WORLD_ENTRIES];
    uint32_t page[EVTCHN_FIFO_PAGE_WORDS];
    evtchn_fifo_control control;
    uint32_t *pages[1];
    evtchn_fifo_shared shared;
    int quiet;    /* no lines are written */
    size_t used;  /* of the log */
    char log[8192];
} world;

static inline void world_write(world *w, const char *line)
{
    if (!w->quiet)
        w->used += (size_t)snprintf(w->log + w->used, sizeof w->log - w->used, "%s\n", line);
}

static inline void world_fresh(world *w)
{
    memset(w, 0, sizeof *w);
    evtchn_fifo_domain_fresh(&w->domain);
    evtchn_fifo_guest_fresh(&w->guest);
    evtchn_fifo_ledger_fresh(w->ledger, WORLD_ENTRIES);
    w->pages[0] = w->page;
    w->shared.control = &w->control;
    w->shared.pages = w->pages;
    w->shared.words = EVTCHN_FIFO_PAGE_WORDS;
}

static inline void world_place(evtchn_fifo_next next, char *place, size_t size)
{
    switch (evtchn_fifo_place_of(next)) {
    case EVTCHN_FIFO_WORD: snprintf(place, size, "w%u", (unsigned)next.index); break;
    case EVTCHN_FIFO_READY: snprintf(place, size, "ready"); break;
    default: snprintf(place, size, "h%u", (unsigned)next.index); break;
    }
}

static inline void world_word(int shown, uint32_t word, char *text, size_t size)
{
    if (shown)
        snprintf(text, size, "%08X", (unsigned)word);
    else
        snprintf(text, size, "-");
}

/* side, kind, place, old, operand, seen */
static inline void world_access(world *w, char side, evtchn_fifo_next next, uint32_t seen)
{
    static const char *const kinds[] = {"read", "store", "or", "and", "swap", "cas"};
    unsigned kind = evtchn_fifo_kind_of(next);
    char place[16], old[16], operand[16], saw[16], line[96];
    world_place(next, place, sizeof place);
    world_word(kind == EVTCHN_FIFO_CAS, next.old, old, sizeof old);
    world_word(kind != EVTCHN_FIFO_READ, next.value, operand, sizeof operand);
    world_word(kind != EVTCHN_FIFO_STORE, seen, saw, sizeof saw);
    snprintf(line, sizeof line, "%c\t%s\t%s\t%s\t%s\t%s", side, kinds[kind], place, old, operand, saw);
    world_write(w, line);
}

/* side, answer, number, port */
static inline void world_answer(world *w, char side, evtchn_fifo_next next)
{
    char line[64];
    if (next.code == EVTCHN_FIFO_HANDED_OVER || next.code == EVTCHN_FIFO_TAKEN)
        snprintf(line, sizeof line, "%c\tanswer\t%u\t%u\t-\t-", side, (unsigned)next.code, (unsigned)next.index);
    else
        snprintf(line, sizeof line, "%c\tanswer\t%u\t-\t-\t-", side, (unsigned)next.code);
    world_write(w, line);
}

/* A word handed back, seen or not, to the call under way of a side: X the hypervisor, G the guest. */
static inline evtchn_fifo_next world_hand_back(world *w, char side, evtchn_fifo_next next, uint32_t seen)
{
    world_access(w, side, next, seen);
    next = side == 'X' ? evtchn_fifo_domain_reply(&w->domain, w->ledger, WORLD_ENTRIES, seen)
                       : evtchn_fifo_guest_service_reply(&w->guest, seen);
    if (!evtchn_fifo_is_access(next))
        world_answer(w, side, next);
    return next;
}

/* One access performed, and its reply. */
static inline evtchn_fifo_next world_step(world *w, char side, evtchn_fifo_next next)
{
    uint32_t seen = 0;
    if (!evtchn_fifo_perform(&w->shared, next, &seen))
        return next;
    return world_hand_back(w, side, next, seen);
}

/* A call from its start to its answer. */
static inline evtchn_fifo_next world_run(world *w, char side, evtchn_fifo_next next)
{
    if (!evtchn_fifo_is_access(next))
        world_answer(w, side, next);
    while (evtchn_fifo_is_access(next))
        next = world_step(w, side, next);
    return next;
}

static inline evtchn_fifo_next world_bind(world *w, uint32_t port) { return world_run(w, 'X', evtchn_fifo_domain_bind(&w->domain, w->ledger, WORLD_ENTRIES, port)); }
static inline evtchn_fifo_next world_close(world *w, uint32_t port) { return world_run(w, 'X', evtchn_fifo_domain_close(&w->domain, w->ledger, WORLD_ENTRIES, port)); }
static inline evtchn_fifo_next world_raise_start(world *w, uint32_t port) { return evtchn_fifo_domain_raise(&w->domain, w->ledger, WORLD_ENTRIES, port); }
static inline evtchn_fifo_next world_raise(world *w, uint32_t port) { return world_run(w, 'X', world_raise_start(w, port)); }
static inline evtchn_fifo_next world_unmask(world *w, uint32_t port) { return world_run(w, 'X', evtchn_fifo_domain_unmask(&w->domain, w->ledger, WORLD_ENTRIES, port)); }
static inline evtchn_fifo_next world_service(world *w) { return world_run(w, 'G', evtchn_fifo_guest_service(&w->guest)); }

/* A mask's access comes with its answer. */
static inline void world_mask(world *w, uint32_t port)
{
    evtchn_fifo_next next = evtchn_fifo_mask(port, EVTCHN_FIFO_PAGE_WORDS);
    evtchn_fifo_next done = {EVTCHN_FIFO_DONE, 0, 1, 0};
    uint32_t seen = 0;
    if (evtchn_fifo_perform(&w->shared, next, &seen))
        world_access(w, 'G', next, seen);
    world_answer(w, 'G', done);
}

/* The control block given, one page, and the guest told. */
static inline void world_begin(world *w)
{
    world_run(w, 'X', evtchn_fifo_domain_init_control(&w->domain, 0, 1, 2, 0));
    world_run(w, 'X', evtchn_fifo_domain_expand_array(&w->domain, 1, 2));
    evtchn_fifo_guest_tell(&w->guest, EVTCHN_FIFO_PAGE_WORDS);
}

static inline uint32_t world_record_word(const uint8_t *bytes, size_t at)
{
    return (uint32_t)bytes[at] | (uint32_t)bytes[at + 1] << 8 | (uint32_t)bytes[at + 2] << 16 | (uint32_t)bytes[at + 3] << 24;
}

static inline uint32_t world_tail(const world *w, unsigned queue) { return world_record_word(w->domain.bytes, 8 + 4 * queue); }
static inline uint32_t world_head(const world *w, unsigned queue) { return world_record_word(w->guest.bytes, 4 * queue); }
static inline uint32_t world_ready(const world *w) { return world_record_word(w->guest.bytes, 64); }

#endif
