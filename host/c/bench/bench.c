/*
 * The cost of one call, whole, with real atomic accesses: bench CALL REPEATS [PAGES PORT OTHERS]. CALL-locked is the same with a lock
 * taken and given back. Linked with one archive, whose calls the run loops of evtchn_fifo_atomic.h bring to their answer; compiled
 * with IN_PLACE, raise, unmask, service and clear_mask are those of in_place.h instead; with CABLES there are sends too, each a send on a
 * cable and the raise of PORT.
 *
 * The state just before the call is made by the library's own calls: a domain with PAGES pages and a ledger for all of their
 * ports, and OTHERS ports that stand on a queue. Each repeat puts back the few words that the call changed, and no buffer is
 * cleared; then it makes the call on PORT and compares the answer, the count of accesses and the words left.
 * Prints the nanoseconds of a call: those of the repeats less those of repeats without the call.
 */
#define _POSIX_C_SOURCE 200809L
#include <stdio.h>
#include <stdlib.h>
#include <string.h>
#include <time.h>

#include "in_place.h"
#ifdef CABLES
#include "evtchn_cables.h"
#endif

#define QUEUE 7u /* every port's, unless its priority is changed */
#define ROUNDS 20

static struct state {
    evtchn_fifo_domain domain;
    evtchn_fifo_guest guest;
    evtchn_fifo_shared shared;
    uint32_t lock;
    evtchn_fifo_control control;
    uint16_t ledger[EVTCHN_FIFO_PORTS];
    uint32_t apart[256]; /* addresses that differ by a multiple of 4,096 only hinder each other in the processor */
    uint32_t words[EVTCHN_FIFO_PORTS];
    uint32_t *pages[EVTCHN_FIFO_PORTS / EVTCHN_FIFO_PAGE_WORDS];
#ifdef CABLES
    evtchn_cables cables;
    evtchn_fifo_domain sender; /* another domain, from whose port a cable leads to the port that is raised */
    uint16_t sender_ledger[64];
    evtchn_cables_end end; /* of the cable, at the sender */
    uint32_t slot;
    struct state *domains[EVTCHN_CABLES_DOMAINS]; /* whom to raise, by number */
#endif
} state, before;

static uint32_t page_count = 1, port = 5, others;

static void fail(const char *text)
{
    fprintf(stderr, "bench: %s\n", text);
    exit(1);
}

/* ---- calls from their start to their answer, on what a pointer leads to ---- */

#ifdef IN_PLACE
static inline evtchn_fifo_next raise(struct state *s, uint32_t p) { return in_place_raise(&s->domain, s->ledger, s->shared.words, &s->shared, p); }
static inline evtchn_fifo_next unmask(struct state *s, uint32_t p) { return in_place_unmask(&s->domain, s->ledger, s->shared.words, &s->shared, p); }
static inline evtchn_fifo_next service(struct state *s) { return in_place_service(&s->guest, &s->shared); }
static inline evtchn_fifo_next clear_mask(struct state *s, uint32_t p) { return in_place_clear_mask(&s->guest, &s->shared, p); }
#else
static inline evtchn_fifo_next raise(struct state *s, uint32_t p)
{
    evtchn_fifo_next next = evtchn_fifo_domain_raise(&s->domain, s->ledger, s->shared.words, p);
    return evtchn_fifo_domain_run(&s->domain, s->ledger, s->shared.words, &s->shared, next);
}

static inline evtchn_fifo_next unmask(struct state *s, uint32_t p)
{
    evtchn_fifo_next next = evtchn_fifo_domain_unmask(&s->domain, s->ledger, s->shared.words, p);
    return evtchn_fifo_domain_run(&s->domain, s->ledger, s->shared.words, &s->shared, next);
}

static inline evtchn_fifo_next service(struct state *s)
{
    return evtchn_fifo_guest_run(&s->guest, &s->shared, evtchn_fifo_guest_service(&s->guest));
}

static inline evtchn_fifo_next clear_mask(struct state *s, uint32_t p)
{
    return evtchn_fifo_guest_run(&s->guest, &s->shared, evtchn_fifo_guest_clear_mask(&s->guest, p));
}
#endif

static inline void take_lock(struct state *s)
{
    while (__atomic_exchange_n(&s->lock, 1, __ATOMIC_ACQUIRE) != 0)
        __builtin_ia32_pause();
}

static inline void give_lock(struct state *s) { __atomic_store_n(&s->lock, 0, __ATOMIC_RELEASE); }

/* What tools/bench counts as whole calls: a function each, which no caller sees into. */
#define WHOLE __attribute__((noinline)) evtchn_fifo_next
WHOLE whole_raise(struct state *s, uint32_t p) { return raise(s, p); }
WHOLE whole_unmask(struct state *s, uint32_t p) { return unmask(s, p); }
WHOLE whole_service(struct state *s) { return service(s); }
WHOLE whole_clear_mask(struct state *s, uint32_t p) { return clear_mask(s, p); }

WHOLE whole_bind(struct state *s, uint32_t p)
{
    evtchn_fifo_next next = evtchn_fifo_domain_bind(&s->domain, s->ledger, s->shared.words, p);
    return evtchn_fifo_domain_run(&s->domain, s->ledger, s->shared.words, &s->shared, next);
}

WHOLE whole_raise_locked(struct state *s, uint32_t p)
{
    evtchn_fifo_next next;
    take_lock(s);
    next = raise(s, p);
    give_lock(s);
    return next;
}

WHOLE whole_unmask_locked(struct state *s, uint32_t p)
{
    evtchn_fifo_next next;
    take_lock(s);
    next = unmask(s, p);
    give_lock(s);
    return next;
}

#ifdef CABLES
static inline evtchn_cables_far send(const struct state *s, uint32_t hint)
{
    evtchn_cables_far far = evtchn_cables_send(&s->cables, s->end, hint);
    if (far.code != EVTCHN_FIFO_DONE)
        fail("a send is refused");
    return far;
}

WHOLE whole_send(struct state *s, uint32_t p)
{
    evtchn_cables_far far = send(s, s->slot);
    (void)p;
    return raise(s->domains[far.domain], far.port);
}

WHOLE whole_search(struct state *s, uint32_t p)
{
    evtchn_cables_far far = send(s, EVTCHN_CABLES_NO_HINT);
    (void)p;
    return raise(s->domains[far.domain], far.port);
}

/* A send whose raise has the replies of a host that uses those with cables for every call. */
WHOLE whole_send_replied(struct state *s, uint32_t p)
{
    evtchn_cables_far far = send(s, s->slot);
    struct state *d = s->domains[far.domain];
    evtchn_fifo_next next = evtchn_fifo_domain_raise(&d->domain, d->ledger, d->shared.words, far.port);
    (void)p;
    return evtchn_cables_domain_run(&s->cables, far.domain, &d->domain, d->ledger, d->shared.words, &d->shared, next);
}
#endif

static evtchn_fifo_next serve_one(struct state *s, uint32_t p)
{
    (void)p;
    return whole_service(s);
}

#define EIGHT 8u

static evtchn_fifo_next serve_eight(struct state *s, uint32_t p)
{
    uint32_t k;
    for (k = 1; k < EIGHT; k++)
        serve_one(s, p);
    return serve_one(s, p);
}

static void done(evtchn_fifo_next next)
{
    if (next.code > EVTCHN_FIFO_UPCALL_WANTED)
        fail("a call before the one to measure is refused");
}

/* ---- the state just before the call ---- */

/* The other ports are numbered from 1. */
static uint32_t other(uint32_t number) { return number < port ? number : number + 1; }

/* They are bound to a queue and raised. */
static void raise_others(uint32_t queue)
{
    uint32_t k;
    for (k = 1; k <= others; k++) {
        done(whole_bind(&state, other(k)));
        done(evtchn_fifo_domain_set_priority(&state.domain, state.ledger, state.shared.words, other(k), queue));
        done(whole_raise(&state, other(k)));
    }
}

static void on_empty_queue(void)
{
    done(whole_bind(&state, port));
    raise_others(QUEUE + 1);
}

static void on_tail(void)
{
    done(whole_bind(&state, port));
    raise_others(QUEUE);
}

static void at_head(void)
{
    done(whole_bind(&state, port));
    done(whole_raise(&state, port));
    raise_others(QUEUE);
}

static void quiet_and_masked(void)
{
    uint32_t seen;
    on_empty_queue();
    if (!evtchn_fifo_perform(&state.shared, evtchn_fifo_mask(port, state.shared.words), &seen))
        fail("the mask is refused");
}

static void pending_and_masked(void)
{
    quiet_and_masked();
    done(whole_raise(&state, port));
}

static void unbound(void) { raise_others(QUEUE + 1); }

#ifdef CABLES
#define SENDER 1u
#define RAISED 2u
#define SENDER_PORT 5u
#define SENDER_ENTRIES (sizeof state.sender_ledger / sizeof state.sender_ledger[0])

/* The last of so many cables, in the slot behind the others', which are of other domains: port k of 10 to port k of 11. */
static void lay(uint32_t cables)
{
    evtchn_cables_end near = {&state.sender, state.sender_ledger, SENDER_ENTRIES, SENDER, SENDER_PORT};
    evtchn_cables_end far = {&state.domain, state.ledger, state.shared.words, RAISED, port};
    evtchn_cables_laid laid;
    uint32_t k;
    for (k = 1; k < cables; k++) {
        uint32_t ends[2] = {(10u << 20) + k, (11u << 20) + k};
        memcpy(state.cables.bytes + (k - 1) * sizeof ends, ends, sizeof ends);
    }
    evtchn_fifo_domain_fresh(&state.sender);
    evtchn_fifo_ledger_fresh(state.sender_ledger, SENDER_ENTRIES);
    done(evtchn_fifo_domain_init_control(&state.sender, 0, 0, 1, 0));
    done(evtchn_fifo_domain_bind(&state.sender, state.sender_ledger, SENDER_ENTRIES, SENDER_PORT));
    laid = evtchn_cables_lay(&state.cables, near, far);
    if (laid.code != EVTCHN_FIFO_DONE || laid.slot != cables - 1)
        fail("the cable is not laid in the last slot");
    state.end = near;
    state.slot = laid.slot;
    state.domains[RAISED] = &state;
}

static void one_to_empty(void)
{
    on_empty_queue();
    lay(1);
}

static void all_to_empty(void)
{
    on_empty_queue();
    lay(EVTCHN_CABLES_SLOTS);
}

static void one_to_tail(void)
{
    on_tail();
    lay(1);
}

static void all_to_tail(void)
{
    on_tail();
    lay(EVTCHN_CABLES_SLOTS);
}
#endif

/* ---- the words that the call must leave ---- */

static uint32_t record_word(const uint8_t *bytes, size_t at)
{
    uint32_t word;
    memcpy(&word, bytes + at, sizeof word);
    return word;
}

static uint32_t tail(void) { return record_word(state.domain.bytes, 8 + 4 * QUEUE); }
static uint32_t local_head(void) { return record_word(state.guest.bytes, 4 * QUEUE); }
static uint32_t local_ready(void) { return record_word(state.guest.bytes, 64); }

static int is_linked(void) { return state.words[port] == 0xA0000000u && state.ledger[port] == 0x377u && tail() == port; }
static int starts_queue(void) { return is_linked() && state.control.head[QUEUE] == port && (state.control.ready & 1u << QUEUE); }
static int ends_queue(void) { return is_linked() && state.words[other(others)] == (0xA0000000u | port); }
static int is_still_linked(void) { return state.words[port] == (0xA0000000u | other(1)) && tail() == other(others); }
static int is_clear(void) { return state.words[port] == 0; }
static int is_bound(void) { return state.ledger[port] == 0x107u && is_clear(); }
static int is_unchanged(void) { return memcmp(&state, &before, sizeof state) == 0; }
static int is_served(void) { return is_clear() && state.control.ready == 0 && local_head() == other(1) && local_ready() == 1u << QUEUE; }

static int are_served(void)
{
    int more = others >= EIGHT;
    return is_clear() && state.words[other(EIGHT - 1)] == 0 && state.control.ready == 0 &&
           local_head() == (more ? other(EIGHT) : 0) && local_ready() == (more ? 1u << QUEUE : 0);
}

/* the index of an answer */
static uint32_t no_port(void) { return 0; }
static uint32_t first_port(void) { return port; }
static uint32_t eighth_port(void) { return other(EIGHT - 1); }

static const struct call {
    const char *name;
    void (*prepare)(void);
    evtchn_fifo_next (*run)(struct state *s, uint32_t port);
    uint32_t events, code, count; /* services, the answer of the last, and its count of accesses */
    uint32_t (*index)(void);
    int (*is_left)(void);
} calls[] = {
    {"raise-empty", on_empty_queue, whole_raise, 1, EVTCHN_FIFO_UPCALL_WANTED, 4, no_port, starts_queue},
    {"raise-tail", on_tail, whole_raise, 1, EVTCHN_FIFO_DONE, 4, no_port, ends_queue},
    {"raise-linked", at_head, whole_raise, 1, EVTCHN_FIFO_DONE, 1, no_port, is_still_linked},
    {"unmask", pending_and_masked, whole_unmask, 1, EVTCHN_FIFO_UPCALL_WANTED, 4, no_port, starts_queue},
    {"unmask-quiet", quiet_and_masked, whole_unmask, 1, EVTCHN_FIFO_DONE, 1, no_port, is_clear},
    {"clear-mask", quiet_and_masked, whole_clear_mask, 1, EVTCHN_FIFO_DONE, 2, no_port, is_clear},
    {"raise-empty-locked", on_empty_queue, whole_raise_locked, 1, EVTCHN_FIFO_UPCALL_WANTED, 4, no_port, starts_queue},
    {"raise-tail-locked", on_tail, whole_raise_locked, 1, EVTCHN_FIFO_DONE, 4, no_port, ends_queue},
    {"raise-linked-locked", at_head, whole_raise_locked, 1, EVTCHN_FIFO_DONE, 1, no_port, is_still_linked},
    {"unmask-locked", pending_and_masked, whole_unmask_locked, 1, EVTCHN_FIFO_UPCALL_WANTED, 4, no_port, starts_queue},
    {"unmask-quiet-locked", quiet_and_masked, whole_unmask_locked, 1, EVTCHN_FIFO_DONE, 1, no_port, is_clear},
    {"service", at_head, serve_one, 1, EVTCHN_FIFO_HANDED_OVER, 5, first_port, is_served},
    {"serve-eight", at_head, serve_eight, EIGHT, EVTCHN_FIFO_HANDED_OVER, 4, eighth_port, are_served},
    {"bind", unbound, whole_bind, 1, EVTCHN_FIFO_DONE, 1, no_port, is_bound},
    {"refused", unbound, whole_raise, 1, EVTCHN_FIFO_NOT_BOUND, 0, no_port, is_unchanged},
#ifdef CABLES
    {"send-empty-1", one_to_empty, whole_send, 1, EVTCHN_FIFO_UPCALL_WANTED, 4, no_port, starts_queue},
    {"send-empty-1024", all_to_empty, whole_send, 1, EVTCHN_FIFO_UPCALL_WANTED, 4, no_port, starts_queue},
    {"send-tail-1", one_to_tail, whole_send, 1, EVTCHN_FIFO_DONE, 4, no_port, ends_queue},
    {"send-tail-1024", all_to_tail, whole_send, 1, EVTCHN_FIFO_DONE, 4, no_port, ends_queue},
    {"replied-empty-1", one_to_empty, whole_send_replied, 1, EVTCHN_FIFO_UPCALL_WANTED, 4, no_port, starts_queue},
    {"replied-empty-1024", all_to_empty, whole_send_replied, 1, EVTCHN_FIFO_UPCALL_WANTED, 4, no_port, starts_queue},
    {"replied-tail-1", one_to_tail, whole_send_replied, 1, EVTCHN_FIFO_DONE, 4, no_port, ends_queue},
    {"replied-tail-1024", all_to_tail, whole_send_replied, 1, EVTCHN_FIFO_DONE, 4, no_port, ends_queue},
    {"search-empty-1", one_to_empty, whole_search, 1, EVTCHN_FIFO_UPCALL_WANTED, 4, no_port, starts_queue},
    {"search-empty-1024", all_to_empty, whole_search, 1, EVTCHN_FIFO_UPCALL_WANTED, 4, no_port, starts_queue},
    {"search-tail-1", one_to_tail, whole_search, 1, EVTCHN_FIFO_DONE, 4, no_port, ends_queue},
    {"search-tail-1024", all_to_tail, whole_search, 1, EVTCHN_FIFO_DONE, 4, no_port, ends_queue},
#endif
};

/* ---- repeats ---- */

/* A word of the state that the call changes. */
static struct change {
    size_t at;
    uint32_t before, after;
} changes[16];
static size_t change_count;

static int is_right(const struct call *call, evtchn_fifo_next next)
{
    return next.code == call->code && next.value == call->count && next.index == call->index() && next.old == 0;
}

/* The fields of the call under way: it has ended, and what an archive leaves there is not looked at again. */
static int is_stale(size_t at)
{
    size_t domain = offsetof(struct state, domain), guest = offsetof(struct state, guest);
    return (at >= domain + 72 && at < domain + EVTCHN_FIFO_DOMAIN_SIZE) ||
           (at >= guest + 72 && at < guest + EVTCHN_FIFO_GUEST_SIZE);
}

/* The call for the first time: what it must leave, and which words it changes. */
static void find_changes(const struct call *call)
{
    const uint8_t *then = (const uint8_t *)&before, *now = (const uint8_t *)&state;
    size_t at;
    before = state;
    if (!is_right(call, call->run(&state, port)) || !call->is_left())
        fail("the call's answer, its count of accesses or the words that it leaves are wrong");
    for (at = 0; at < sizeof state; at += 4) {
        struct change change = {at, record_word(then, at), record_word(now, at)};
        if (change.before == change.after || is_stale(at))
            continue;
        if (change_count == sizeof changes / sizeof changes[0])
            fail("the call changes too many words");
        changes[change_count++] = change;
    }
}

static void put_back(void)
{
    size_t k;
    for (k = 0; k < change_count; k++)
        memcpy((uint8_t *)&state + changes[k].at, &changes[k].before, 4);
}

static double now(void)
{
    struct timespec time;
    clock_gettime(CLOCK_MONOTONIC, &time);
    return (double)time.tv_sec * 1e9 + (double)time.tv_nsec;
}

/* Nanoseconds of so many repeats with the call. */
static double with_call(const struct call *call, long repeats)
{
    double begun = now();
    size_t c;
    int right = 1;
    for (; repeats > 0; repeats--) {
        put_back();
        right &= is_right(call, call->run(&state, port));
        for (c = 0; c < change_count; c++)
            right &= record_word((uint8_t *)&state, changes[c].at) == changes[c].after;
    }
    if (!right)
        fail("a repeat of the call does not give or leave what the first one did");
    return now() - begun;
}

/* The same without the call. */
static double without_call(long repeats)
{
    double begun = now();
    size_t c;
    int right = 1;
    for (; repeats > 0; repeats--) {
        put_back();
        for (c = 0; c < change_count; c++)
            right &= record_word((uint8_t *)&state, changes[c].at) == changes[c].before;
    }
    if (!right)
        fail("a word was not put back");
    return now() - begun;
}

/* The least of some rounds of each. tools/bench counts the library's instructions from here on. */
__attribute__((noinline)) double measure(const struct call *call, long repeats)
{
    double least = 0, least_without = 0;
    int round;
    for (round = 0; round < ROUNDS; round++) {
        double time = with_call(call, repeats / ROUNDS), time_without = without_call(repeats / ROUNDS);
        least = round == 0 || time < least ? time : least;
        least_without = round == 0 || time_without < least_without ? time_without : least_without;
    }
    return (least - least_without) / (double)(repeats / ROUNDS) / call->events;
}

/* ---- arguments ---- */

static long number(const char *text, long least, long most)
{
    char *end;
    long value = strtol(text, &end, 10);
    if (*text == '\0' || *end != '\0' || value < least || value > most) {
        fprintf(stderr, "bench: %s is not a number from %ld to %ld\n", text, least, most);
        exit(1);
    }
    return value;
}

static const struct call *named(const char *name)
{
    size_t k;
    for (k = 0; k < sizeof calls / sizeof calls[0]; k++)
        if (strcmp(calls[k].name, name) == 0)
            return calls + k;
    fprintf(stderr, "bench: there is no call %s\n", name);
    exit(1);
}

static void begin(void)
{
    uint32_t k;
    state.shared.control = &state.control;
    state.shared.pages = state.pages;
    state.shared.words = page_count * EVTCHN_FIFO_PAGE_WORDS;
    evtchn_fifo_domain_fresh(&state.domain);
    evtchn_fifo_guest_fresh(&state.guest);
    evtchn_fifo_ledger_fresh(state.ledger, state.shared.words);
    done(evtchn_fifo_domain_init_control(&state.domain, 0, 0, 1, 0));
    for (k = 0; k < page_count; k++) {
        state.pages[k] = state.words + k * EVTCHN_FIFO_PAGE_WORDS;
        done(evtchn_fifo_domain_expand_array(&state.domain, 0, 1));
    }
    done(evtchn_fifo_guest_tell(&state.guest, state.shared.words));
}

int main(int count, char **words)
{
    const struct call *call;
    long repeats;
    if (count != 3 && count != 6)
        fail("arguments: CALL REPEATS [PAGES PORT OTHERS]");
    call = named(words[1]);
    repeats = number(words[2], ROUNDS, 1000000000);
    others = call->events > 1 ? call->events - 1 : 1;
    if (count == 6) {
        page_count = (uint32_t)number(words[3], 1, EVTCHN_FIFO_PORTS / EVTCHN_FIFO_PAGE_WORDS);
        port = (uint32_t)number(words[4], 1, (long)(page_count * EVTCHN_FIFO_PAGE_WORDS) - 1);
        others = (uint32_t)number(words[5], (long)others, (long)(page_count * EVTCHN_FIFO_PAGE_WORDS) - 2);
    }
    begin();
    call->prepare();
    find_changes(call);
    printf("%.3f\n", measure(call, repeats));
    return 0;
}
