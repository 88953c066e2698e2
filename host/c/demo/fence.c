/*
 * One list of orders over six domains with cables is run twice, on one thread, from one start. Only the words of one domain differ: what
 * they hold at the start, and what is handed back after her accesses. An order that in one run alone would refuse an init, expand, bind or
 * close of hers, or end a bind of hers with 7, is left out of both. Then all that is heard of the other domains, and every answer to a lay,
 * a cut or a send, must be the same in both runs, line by line, and so must the other domains and the table at the end.
 */
#include "fence.h"

#include <string.h>

#include "evtchn_cables.h"
#include "evtchn_fifo_trace.h"
#include "numbers.h"
#include "random.h"

#define DOMAINS 6u
#define HERS 2u
#define ORDERS 20000u

#define PAGES 3u
#define WORDS (PAGES * EVTCHN_FIFO_PAGE_WORDS)
#define FRAMES 1u

/* The most lines of one order, and the space for a line. */
#define MOST_LINES 3u
#define LINE 128u

typedef enum order_kind {
    INIT, EXPAND, BIND, CLOSE, RAISE, UNMASK, SET_PRIORITY, REPLY, /* the hypervisor's, on one domain */
    SERVICE, CLEAR_MASK, GUEST_REPLY, MASK, TELL,                  /* a guest's */
    LAY, CUT, SEND                                                 /* between domains */
} order_kind;

/* Each as often as it is drawn. */
static const order_kind kinds[] = {
    INIT, EXPAND, BIND, BIND, BIND, BIND, BIND, CLOSE, RAISE, RAISE, RAISE, RAISE, UNMASK, UNMASK, SET_PRIORITY,
    REPLY, REPLY, REPLY, REPLY, REPLY, REPLY, REPLY, REPLY, REPLY, REPLY, REPLY, REPLY, REPLY, REPLY,
    SERVICE, SERVICE, CLEAR_MASK, GUEST_REPLY, GUEST_REPLY, GUEST_REPLY, GUEST_REPLY, GUEST_REPLY, GUEST_REPLY, MASK, TELL,
    LAY, LAY, LAY, LAY, LAY, LAY, CUT, SEND, SEND, SEND, SEND, SEND, SEND, SEND, SEND, SEND, SEND, SEND, SEND,
};

/* of three pages; the last two are refused with 14 and 3 */
static const uint32_t ports[] = {1, 2, 3, 5, 1023, 1024, 1500, 2048, 3072, 131072};

#define NUMBER_OF(array) ((uint32_t)(sizeof(array) / sizeof *(array)))

typedef struct order {
    order_kind kind;
    uint32_t domain, port;
    uint32_t far_domain, far_port; /* of a lay */
    uint32_t argument;             /* a frame, a priority, pages told, or a hint */
    bool other_word;               /* not the word seen is handed back, */
    uint32_t word;                 /* but this, and to her calls any word of the run's own */
} order;

/* A domain: the hypervisor's record and ledger, the guest's record, and the words that they share. */
typedef struct state {
    evtchn_fifo_domain record;
    evtchn_fifo_guest guest;
    uint16_t ledger[WORDS];
    evtchn_fifo_control control;
    uint32_t words[PAGES][EVTCHN_FIFO_PAGE_WORDS];
} state;

typedef struct run {
    state domains[DOMAINS];
    evtchn_cables cables;
    uint64_t random;           /* for her words */
    bool saw;                  /* the last order made an access of hers, */
    uint32_t seen;             /* after which this word was handed back */
    uint32_t order, domain;    /* of the next line */
    evtchn_fifo_trace trace;   /* of all domains but hers */
    uint64_t heard, answers;   /* lines of the other domains; of lays, cuts and sends */
    uint64_t to_her, from_her; /* sends that came through */
    char lines[ORDERS * MOST_LINES * LINE];
    size_t used;
} run;

/* ---- lines ---- */

static void write_heard(void *context, const char *line, size_t length)
{
    run *r = context;
    r->used += (size_t)snprintf(r->lines + r->used, LINE, "order %u, domain %u: %.*s", r->order, r->domain, (int)length, line);
    r->heard++;
}

/* A lay, a cut or a send, and its answer. */
static void write_answer(run *r, const char *text)
{
    r->used += (size_t)snprintf(r->lines + r->used, LINE, "order %u, %s\n", r->order, text);
    r->answers++;
}

static evtchn_fifo_trace *trace_of(run *r, uint32_t domain)
{
    r->domain = domain;
    return domain == HERS ? NULL : &r->trace;
}

/* ---- the orders of one domain ---- */

static evtchn_fifo_shared shared_of(state *d, uint32_t *pages[PAGES])
{
    uint32_t k;
    for (k = 0; k < PAGES; k++)
        pages[k] = d->words[k];
    return (evtchn_fifo_shared){&d->control, pages, WORDS};
}

/* The word to hand back: that of the access, which is made where one is due, or another. */
static uint32_t word_for(run *r, const order *o, evtchn_fifo_next due)
{
    uint32_t *pages[PAGES], seen = 0;
    evtchn_fifo_shared shared = shared_of(&r->domains[o->domain], pages);
    bool made = evtchn_fifo_perform(&shared, due, &seen);
    if (o->other_word)
        seen = o->domain == HERS ? random_word(&r->random) : o->word;
    r->saw = made && o->domain == HERS;
    r->seen = seen;
    return seen;
}

static uint32_t reply(run *r, const order *o)
{
    state *d = &r->domains[o->domain];
    evtchn_fifo_trace *trace = trace_of(r, o->domain);
    evtchn_fifo_next due = evtchn_fifo_domain_due(&d->record), next;
    uint32_t seen = word_for(r, o, due);
    next = evtchn_cables_domain_reply(&r->cables, o->domain, &d->record, d->ledger, WORDS, seen);
    if (trace != NULL)
        evtchn_fifo_trace_made(trace, EVTCHN_FIFO_TRACE_HYPERVISOR, due, seen, next);
    return next.code;
}

static uint32_t guest_reply(run *r, const order *o)
{
    state *d = &r->domains[o->domain];
    evtchn_fifo_next due = evtchn_fifo_guest_service_due(&d->guest);
    uint32_t seen = word_for(r, o, due);
    return evtchn_fifo_trace_service_reply(trace_of(r, o->domain), &d->guest, due, seen).code;
}

static uint32_t close_port(run *r, const order *o)
{
    state *d = &r->domains[o->domain];
    evtchn_fifo_trace *trace = trace_of(r, o->domain);
    evtchn_fifo_next next = evtchn_cables_domain_close(&r->cables, o->domain, &d->record, d->ledger, WORDS, o->port);
    if (trace != NULL)
        evtchn_fifo_trace_started(trace, EVTCHN_FIFO_TRACE_HYPERVISOR, evtchn_fifo_line_close(trace->line, o->port), next);
    return next.code;
}

static uint32_t mask(run *r, const order *o)
{
    uint32_t *pages[PAGES];
    evtchn_fifo_shared shared = shared_of(&r->domains[o->domain], pages);
    return evtchn_fifo_trace_mask(trace_of(r, o->domain), &shared, o->port, WORDS).code;
}

static uint32_t raise_port(run *r, uint32_t domain, uint32_t port)
{
    state *d = &r->domains[domain];
    return evtchn_fifo_trace_raise(trace_of(r, domain), &d->record, d->ledger, WORDS, port).code;
}

/* ---- the orders between domains ---- */

static evtchn_cables_end end_of(const run *r, uint32_t domain, uint32_t port)
{
    const state *d = &r->domains[domain];
    return (evtchn_cables_end){&d->record, d->ledger, WORDS, domain, port};
}

static uint32_t lay(run *r, const order *o)
{
    evtchn_cables_laid laid = evtchn_cables_lay(&r->cables, end_of(r, o->domain, o->port), end_of(r, o->far_domain, o->far_port));
    char text[LINE / 2];
    snprintf(text, sizeof text, "lay %u.%u to %u.%u: answer %u, slot %u", o->domain, o->port, o->far_domain, o->far_port, laid.code,
             laid.slot);
    write_answer(r, text);
    return laid.code;
}

static uint32_t cut(run *r, const order *o)
{
    uint32_t code = evtchn_cables_cut(&r->cables, end_of(r, o->domain, o->port));
    char text[LINE / 2];
    snprintf(text, sizeof text, "cut %u.%u: answer %u", o->domain, o->port, code);
    write_answer(r, text);
    return code;
}

/* A send that comes through is a raise of the far domain's: what it comes to is heard of that domain. */
static uint32_t send_from(run *r, const order *o)
{
    evtchn_cables_far far = evtchn_cables_send(&r->cables, end_of(r, o->domain, o->port), o->argument);
    char text[LINE / 2];
    snprintf(text, sizeof text, "send %u.%u: answer %u, to %u.%u, slot %u", o->domain, o->port, far.code, far.domain, far.port, far.slot);
    write_answer(r, text);
    if (far.code != EVTCHN_FIFO_DONE || far.domain >= DOMAINS)
        return far.code;
    r->from_her += o->domain == HERS;
    r->to_her += far.domain == HERS;
    return raise_port(r, far.domain, far.port);
}

/* ---- one list, two runs ---- */

/* What an order comes to: an answer's number, or an access's code. */
static uint32_t apply(run *r, const order *o)
{
    state *d = &r->domains[o->domain];
    evtchn_fifo_trace *trace = trace_of(r, o->domain);
    switch (o->kind) {
    case INIT: return evtchn_fifo_trace_init_control(trace, &d->record, 0, o->argument, FRAMES, 0).code;
    case EXPAND: return evtchn_fifo_trace_expand_array(trace, &d->record, o->argument, FRAMES).code;
    case BIND: return evtchn_fifo_trace_bind(trace, &d->record, d->ledger, WORDS, o->port).code;
    case CLOSE: return close_port(r, o);
    case RAISE: return raise_port(r, o->domain, o->port);
    case UNMASK: return evtchn_fifo_trace_unmask(trace, &d->record, d->ledger, WORDS, o->port).code;
    case SET_PRIORITY: return evtchn_fifo_trace_set_priority(trace, &d->record, d->ledger, WORDS, o->port, o->argument).code;
    case REPLY: return reply(r, o);
    case SERVICE: return evtchn_fifo_trace_service(trace, &d->guest).code;
    case CLEAR_MASK: return evtchn_fifo_trace_clear_mask(trace, &d->guest, o->port).code;
    case GUEST_REPLY: return guest_reply(r, o);
    case MASK: return mask(r, o);
    case TELL: return evtchn_fifo_guest_tell(&d->guest, o->argument % (PAGES + 1) * EVTCHN_FIFO_PAGE_WORDS).code;
    case LAY: return lay(r, o);
    case CUT: return cut(r, o);
    default: return send_from(r, o);
    }
}

/* Hers three times as often as each other. */
static uint32_t draw_domain(uint64_t *random)
{
    uint32_t domain = random_below(random, DOMAINS + 2);
    return domain < DOMAINS ? domain : HERS;
}

/* Seldom one that is refused. */
static uint32_t draw_port(uint64_t *random)
{
    return ports[random_below(random, random_below(random, 8) == 0 ? NUMBER_OF(ports) : NUMBER_OF(ports) - 2)];
}

/* The first orders of the list give each domain its control block and a page, the others are any. */
static order draw(uint64_t *random, uint32_t at)
{
    order o = {.kind = at < DOMAINS ? INIT : EXPAND, .domain = at % DOMAINS};
    if (at < 2 * DOMAINS)
        return o;
    o.kind = kinds[random_below(random, NUMBER_OF(kinds))];
    o.domain = draw_domain(random);
    o.port = draw_port(random);
    o.far_domain = (o.domain + random_below(random, DOMAINS)) % DOMAINS;
    o.far_port = draw_port(random);
    o.argument = random_below(random, 20);
    o.other_word = random_below(random, o.domain == HERS ? 2 : 16) == 0;
    o.word = random_word(random);
    return o;
}

static bool is_refusal(uint32_t code)
{
    return (code >= EVTCHN_FIFO_BAD_PORT && code <= EVTCHN_FIFO_BAD_INDEX) || code == EVTCHN_FIFO_TOO_SHORT;
}

/* Whether the two runs may not differ in what an order comes to, and do. */
static bool is_left_out(const order *o, const uint32_t *codes)
{
    if (o->domain != HERS)
        return false;
    switch (o->kind) {
    case INIT:
    case EXPAND:
    case BIND:
    case CLOSE: return is_refusal(codes[0]) != is_refusal(codes[1]);
    case REPLY: return (codes[0] == EVTCHN_FIFO_STILL_LINKED) != (codes[1] == EVTCHN_FIFO_STILL_LINKED);
    default: return false;
    }
}

/* Both runs, and what is counted of them. */
typedef struct scene {
    run runs[2];
    uint64_t left_out;          /* orders */
    uint64_t words_differed;    /* handed back after accesses of hers in both runs */
    uint64_t refusals_differed; /* of her raises, unmasks and priorities, and of sends to her */
} scene;

static void count(scene *s, const order *o, const uint32_t *codes)
{
    bool may_differ = o->kind == RAISE || o->kind == UNMASK || o->kind == SET_PRIORITY || o->kind == SEND;
    s->refusals_differed += may_differ && is_refusal(codes[0]) != is_refusal(codes[1]);
    s->words_differed += s->runs[0].saw && s->runs[1].saw && s->runs[0].seen != s->runs[1].seen;
}

/* An order is tried in both runs, and taken back where it is to be left out: it has then changed no more than her domain and the table. */
static void try_order(scene *s, const order *o)
{
    static struct {
        state hers;
        evtchn_cables cables;
    } before[2];
    uint32_t codes[2], k;
    for (k = 0; k < 2; k++) {
        run *r = &s->runs[k];
        r->order++;
        r->saw = false;
        before[k].hers = r->domains[HERS];
        before[k].cables = r->cables;
        codes[k] = apply(r, o);
    }
    if (!is_left_out(o, codes)) {
        count(s, o, codes);
        return;
    }
    s->left_out++;
    for (k = 0; k < 2; k++) {
        s->runs[k].domains[HERS] = before[k].hers;
        s->runs[k].cables = before[k].cables;
    }
}

/* All domains are fresh. Their words are zeros, but hers in the second run any. */
static void begin(run *r, uint64_t random, bool any_words)
{
    state *hers = &r->domains[HERS];
    uint32_t k;
    r->random = random;
    r->trace = (evtchn_fifo_trace){.write = write_heard, .context = r};
    for (k = 0; k < DOMAINS; k++) {
        evtchn_fifo_domain_fresh(&r->domains[k].record);
        evtchn_fifo_guest_fresh(&r->domains[k].guest);
        evtchn_fifo_ledger_fresh(r->domains[k].ledger, WORDS);
    }
    for (k = 0; any_words && k < EVTCHN_FIFO_CONTROL_WORDS; k++)
        ((uint32_t *)&hers->control)[k] = random_word(&r->random);
    for (k = 0; any_words && k < WORDS; k++)
        hers->words[k / EVTCHN_FIFO_PAGE_WORDS][k % EVTCHN_FIFO_PAGE_WORDS] = random_word(&r->random);
}

/* ---- what it came to ---- */

/* A number and what it is a number of. */
static void print_count(uint64_t number, const char *text)
{
    print_number(number, 0);
    printf(" %s", text);
}

static int line_length(const run *r, size_t at)
{
    const char *end = memchr(r->lines + at, '\n', r->used - at);
    return end == NULL ? 0 : (int)(end - (r->lines + at));
}

static bool same_line(const run *one, const run *other, size_t at)
{
    int length = line_length(one, at);
    return length > 0 && length == line_length(other, at) && memcmp(one->lines + at, other->lines + at, (size_t)length) == 0;
}

/* Names the first line that is not in both. */
static bool same_lines(const run *one, const run *other)
{
    size_t at = 0;
    uint64_t line = 1;
    for (; same_line(one, other, at); line++)
        at += (size_t)line_length(one, at) + 1;
    if (at == one->used && at == other->used)
        return true;
    printf("Line ");
    print_count(line, "of the other domains and of lays, cuts and sends differs:\n");
    printf("    first run   %.*s\n    second run  %.*s\n", line_length(one, at), one->lines + at, line_length(other, at),
           other->lines + at);
    return false;
}

static bool same_at_the_end(const run *one, const run *other)
{
    bool same = memcmp(&one->cables, &other->cables, sizeof one->cables) == 0;
    uint32_t k;
    for (k = 0; k < DOMAINS; k++)
        if (k != HERS)
            same = same && memcmp(&one->domains[k], &other->domains[k], sizeof one->domains[k]) == 0;
    if (!same)
        printf("All lines are equal, but another domain, or the table, differs at the end.\n");
    return same;
}

static void print_scene(const scene *s)
{
    const run *r = &s->runs[0];
    printf("\nThe fence: ");
    print_count(ORDERS, "orders over six domains with cables, run twice; what one domain's words hold differs.\n");
    print_count(s->words_differed, "of her words seen differed, and ");
    print_count(s->refusals_differed, "of her refusals (raise, unmask, set_priority and sends to her).\n");
    print_count(r->from_her, "sends came through from her, ");
    print_count(r->to_her, "to her. ");
    print_count(s->left_out, "orders that one run alone would refuse her are left out.\n");
}

static bool is_tried(const scene *s)
{
    return s->words_differed > 0 && s->refusals_differed > 0 && s->runs[0].from_her > 0 && s->runs[0].to_her > 0;
}

bool fence_show(void)
{
    static scene s;
    uint64_t random = 20;
    uint32_t at;
    begin(&s.runs[0], 21, false);
    begin(&s.runs[1], 22, true);
    for (at = 0; at < ORDERS; at++) {
        order o = draw(&random, at);
        try_order(&s, &o);
    }
    print_scene(&s);
    if (!same_lines(&s.runs[0], &s.runs[1]) || !same_at_the_end(&s.runs[0], &s.runs[1]))
        return false;
    print_count(s.runs[0].heard, "lines of 5 other domains and ");
    print_count(s.runs[0].answers, "answers to lays, cuts and sends: equal line by line.\n");
    return is_tried(&s);
}
