/* The calls on a domain: the library names an access, this host performs it and hands back the word seen, until the answer. */
#include <sched.h>
#include <string.h>

#include "domain.h"
#include "random.h"

const char *const conduct_names[CONDUCTS] = {"plain", "masking", "reopening", "contested", "hostile"};

/* of both pages, with their first and last words */
const uint32_t ports[PORTS] = {1, 2, 3, 5, 9, 100, 511, 512, 1022, 1023, 1024, 1025, 1500, 2000, 2046, 2047};

/* A side gives way after so many accesses, so that the other comes between two of a call even on one processor. */
static const uint32_t gives_way[CONDUCTS] = {61, 61, 61, 1, 5};

/* In a contested domain a side waits after an access for fewer than so many of the other's, but gives way so many times at most. */
#define WAITED_FOR 4u
#define MOST_WAITS 2u

/* The frames that a replay supposes of a domain. */
#define FRAMES 1024u

static void count_access(domain *d, evtchn_fifo_next next, uint32_t seen)
{
    unsigned kind = evtchn_fifo_kind_of(next);
    port_account *account;
    if (evtchn_fifo_place_of(next) != EVTCHN_FIFO_WORD)
        return;
    account = &d->accounts[next.index];
    if (kind == EVTCHN_FIFO_OR && next.value == EVTCHN_FIFO_WORD_PENDING) { /* a raise's first */
        if (seen & EVTCHN_FIFO_WORD_PENDING)
            account->coalesced++;
        else
            account->events++;
        atomic_fetch_add_explicit(&d->raises, 1, memory_order_relaxed);
    }
    if (kind == EVTCHN_FIFO_AND && next.value == ~EVTCHN_FIFO_WORD_PENDING && (seen & EVTCHN_FIFO_WORD_PENDING)) /* a close's */
        account->closed++;
}

/* Any refusal but 4, 5, 7, 25 and 26, which closes and binds bring about, and 18, which is counted by itself. 35 is no refusal. */
static bool is_unexpected(uint32_t code)
{
    switch (code) {
    case EVTCHN_FIFO_DONE:
    case EVTCHN_FIFO_UPCALL_WANTED:
    case EVTCHN_FIFO_LINK_ABANDONED:
    case EVTCHN_FIFO_NOT_BOUND:
    case EVTCHN_FIFO_ALREADY_BOUND:
    case EVTCHN_FIFO_STILL_LINKED:
    case EVTCHN_FIFO_BAD_INDEX:
    case EVTCHN_FIFO_HANDED_OVER:
    case EVTCHN_FIFO_NOTHING_READY:
    case EVTCHN_FIFO_TAKEN:
    case EVTCHN_FIFO_CALL_UNMASK:
    case EVTCHN_CABLES_TAKEN:
    case EVTCHN_CABLES_NONE:
        return false;
    default:
        return true;
    }
}

static void count_answer(tally *t, evtchn_fifo_next next, uint32_t made)
{
    t->latest = made;
    if (made > t->longest)
        t->longest = made;
    t->abandoned += next.code == EVTCHN_FIFO_LINK_ABANDONED;
    t->bad_index += next.code == EVTCHN_FIFO_BAD_INDEX;
    t->miscounted += next.value != made;
    t->refused += is_unexpected(next.code);
}

void domain_count_refusal(domain *d, uint32_t code) { d->hypervisor.refused += is_unexpected(code); }

/* An access of a hypervisor's call, and its reply, to which next comes; false where it is not mapped. A close's reply cuts. */
static bool hypervisor_step(domain *d, evtchn_fifo_next *next)
{
    evtchn_fifo_next access = *next;
    uint32_t seen;
    bool made;
    evtchn_fifo_trace_lock(d->trace);
    made = evtchn_fifo_perform(&d->shared, access, &seen);
    if (made) {
        *next = evtchn_cables_domain_reply(d->cables, d->number, &d->record, d->ledger, WORDS, seen);
        if (d->trace != NULL)
            evtchn_fifo_trace_made(d->trace, EVTCHN_FIFO_TRACE_HYPERVISOR, access, seen, *next);
    }
    evtchn_fifo_trace_unlock(d->trace);
    if (made)
        count_access(d, access, seen);
    return made;
}

static bool step(domain *d, side caller, evtchn_fifo_next *next)
{
    uint32_t seen;
    if (caller == GUEST)
        return evtchn_fifo_trace_guest_step(d->trace, &d->guest_record, &d->shared, next, &seen);
    return hypervisor_step(d, next);
}

/* Waits till the other side, while it is at work, has made some accesses, so that they fall between two of the caller's. */
static void wait_for_other(domain *d, side caller, uint64_t *random)
{
    side_seen *other = &d->sides[caller == GUEST ? HYPERVISOR : GUEST];
    unsigned begun = atomic_load(&other->accesses), wanted = random_below(random, WAITED_FOR), waits;
    for (waits = 0; waits < MOST_WAITS && atomic_load(&other->at_work) && atomic_load(&other->accesses) - begun < wanted; waits++)
        sched_yield();
}

/* Whether a hypervisor's call, after the accesses made, goes on with one to the word of its queue's tail. */
static bool is_at_tail(evtchn_fifo_next next, uint32_t made)
{
    return made >= 3 && evtchn_fifo_is_access(next) && evtchn_fifo_place_of(next) == EVTCHN_FIFO_WORD;
}

/* After each access. */
static void give_way(domain *d, side caller, tally *t, bool contended)
{
    atomic_fetch_add_explicit(&d->sides[caller].accesses, 1, memory_order_relaxed);
    if (++t->accesses % gives_way[d->conduct] != 0)
        return;
    if (d->conduct != CONTESTED)
        sched_yield();
    else if (contended)
        wait_for_other(d, caller, &t->random);
}

/* A call of a side, from its start to its answer. An access outside what is mapped is counted and not made. */
static evtchn_fifo_next run(domain *d, side caller, tally *t, evtchn_fifo_next next)
{
    uint32_t made = 0;
    while (evtchn_fifo_is_access(next) && step(d, caller, &next)) {
        made++;
        give_way(d, caller, t, caller == GUEST || is_at_tail(next, made));
    }
    if (evtchn_fifo_is_access(next))
        t->outside++;
    else
        count_answer(t, next, made);
    return next;
}

static void count_length(domain *d)
{
    uint32_t length = d->hypervisor.latest;
    d->lengths[length < MOST_ACCESSES ? length : MOST_ACCESSES]++;
}

uint32_t domain_finish(domain *d, evtchn_fifo_next next)
{
    uint32_t call = evtchn_fifo_domain_under_way(&d->record);
    atomic_store(&d->sides[HYPERVISOR].at_work, true);
    next = run(d, HYPERVISOR, &d->hypervisor, next);
    atomic_store(&d->sides[HYPERVISOR].at_work, false);
    if ((call == EVTCHN_FIFO_RAISE || call == EVTCHN_FIFO_UNMASK) && !evtchn_fifo_is_access(next))
        count_length(d);
    pthread_mutex_unlock(&d->lock);
    if (next.code == EVTCHN_FIFO_UPCALL_WANTED) {
        atomic_store(&d->sides[GUEST].at_work, true);
        upcall_want(&d->upcall);
    }
    return next.code;
}

uint32_t domain_bind(domain *d, uint32_t port)
{
    pthread_mutex_lock(&d->lock);
    return domain_finish(d, evtchn_fifo_trace_bind(d->trace, &d->record, d->ledger, WORDS, port));
}

/* A close's start, with its line, at one moment. */
static evtchn_fifo_next start_close(domain *d, uint32_t port)
{
    evtchn_fifo_next next;
    evtchn_fifo_trace_lock(d->trace);
    next = evtchn_cables_domain_close(d->cables, d->number, &d->record, d->ledger, WORDS, port);
    if (d->trace != NULL)
        evtchn_fifo_trace_started(d->trace, EVTCHN_FIFO_TRACE_HYPERVISOR, evtchn_fifo_line_close(d->trace->line, port), next);
    evtchn_fifo_trace_unlock(d->trace);
    return next;
}

uint32_t domain_close(domain *d, uint32_t port)
{
    pthread_mutex_lock(&d->lock);
    return domain_finish(d, start_close(d, port));
}

uint32_t domain_set_priority(domain *d, uint32_t port, uint32_t priority)
{
    pthread_mutex_lock(&d->lock);
    return domain_finish(d, evtchn_fifo_trace_set_priority(d->trace, &d->record, d->ledger, WORDS, port, priority));
}

uint32_t domain_raise(domain *d, uint32_t port)
{
    pthread_mutex_lock(&d->lock);
    return domain_finish(d, evtchn_fifo_trace_raise(d->trace, &d->record, d->ledger, WORDS, port));
}

uint32_t domain_unmask(domain *d, uint32_t port)
{
    pthread_mutex_lock(&d->lock);
    return domain_finish(d, evtchn_fifo_trace_unmask(d->trace, &d->record, d->ledger, WORDS, port));
}

uint32_t domain_service(domain *d, uint32_t *port)
{
    evtchn_fifo_next next = run(d, GUEST, &d->guest, evtchn_fifo_trace_service(d->trace, &d->guest_record));
    *port = next.index;
    if (next.code == EVTCHN_FIFO_HANDED_OVER) {
        d->accounts[next.index].handed_over++;
        atomic_fetch_add_explicit(&d->hand_overs, 1, memory_order_relaxed);
    }
    return next.code;
}

void domain_mask(domain *d, uint32_t port)
{
    if (evtchn_fifo_trace_mask(d->trace, &d->shared, port, WORDS).code != EVTCHN_FIFO_DONE)
        d->guest.outside++;
    give_way(d, GUEST, &d->guest, true);
}

uint32_t domain_clear_mask(domain *d, uint32_t port)
{
    return run(d, GUEST, &d->clear_masks, evtchn_fifo_trace_clear_mask(d->trace, &d->guest_record, port)).code;
}

static void fresh(domain *d)
{
    uint32_t k;
    memset(d, 0, sizeof *d);
    pthread_mutex_init(&d->lock, NULL);
    pthread_mutex_init(&d->upcall.lock, NULL);
    pthread_cond_init(&d->upcall.changed, NULL);
    for (k = 0; k < PAGES; k++)
        d->pages[k] = d->array[k];
    d->shared = (evtchn_fifo_shared){&d->control, d->pages, WORDS};
    evtchn_fifo_domain_fresh(&d->record);
    evtchn_fifo_guest_fresh(&d->guest_record);
    evtchn_fifo_ledger_fresh(d->ledger, WORDS);
}

bool domain_begin(domain *d, uint32_t number, conduct kind, evtchn_cables *cables, evtchn_fifo_trace *trace)
{
    uint32_t k, refusals;
    fresh(d);
    d->conduct = kind;
    d->number = number;
    d->seed = number + 1;
    d->hypervisor.random = d->guest.random = d->clear_masks.random = number + 1;
    d->trace = trace;
    d->cables = cables;
    refusals = evtchn_fifo_trace_init_control(trace, &d->record, 0, 0, FRAMES, 0).code;
    for (k = 1; k <= PAGES; k++) {
        refusals |= evtchn_fifo_trace_expand_array(trace, &d->record, k, FRAMES).code;
        evtchn_fifo_guest_tell(&d->guest_record, k * EVTCHN_FIFO_PAGE_WORDS);
    }
    for (k = 0; k < PORTS; k++)
        refusals |= domain_bind(d, ports[k]) | domain_set_priority(d, ports[k], kind == CONTESTED ? 0 : k % 4 * 5);
    return refusals == EVTCHN_FIFO_DONE;
}

void upcall_want(upcall *u)
{
    pthread_mutex_lock(&u->lock);
    u->wanted = true;
    pthread_cond_signal(&u->changed);
    pthread_mutex_unlock(&u->lock);
}

void upcall_stop(upcall *u)
{
    pthread_mutex_lock(&u->lock);
    u->stopped = true;
    pthread_cond_signal(&u->changed);
    pthread_mutex_unlock(&u->lock);
}

bool upcall_wait(upcall *u)
{
    bool taken;
    pthread_mutex_lock(&u->lock);
    while (!u->wanted && !u->stopped)
        pthread_cond_wait(&u->changed, &u->lock);
    taken = u->wanted;
    u->wanted = false;
    pthread_mutex_unlock(&u->lock);
    return taken;
}
