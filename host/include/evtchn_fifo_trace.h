/*
 * evtchn_fifo_trace: writes the log of a domain, a line for each call, access and answer, as its calls are made. The program
 * evtchn_replay and the functions of evtchn_replay.h read such a log, make the calls again, and compare.
 *
 *     evtchn_fifo_trace trace = {.write = evtchn_fifo_trace_to_file, .context = file};
 *     evtchn_fifo_trace_header(&trace);
 *     next = evtchn_fifo_trace_raise(&trace, &domain, ledger, entries, port);
 *     next = evtchn_fifo_trace_domain_run(&trace, &domain, ledger, entries, &shared, next);
 *
 * Fields are parted by tabs and a newline ends each line; side X is the hypervisor, G the guest; a dash stands where there is nothing:
 *
 *     accesses  1                                     the header, once, before all others
 *     X  call    init_control  0  1         0         a call: side, call, name; then of init_control VCPU, frame and offset,
 *     X  call    raise         5  -         -             of the others port, argument (a priority, expand_array's frame) and a dash
 *     G  call    clear_mask    5  -         -             (the guest's are service, mask and clear_mask)
 *     X  or      w5            -  80000000  00000000  an access: side, kind, place, old word, operand, word seen
 *     X  answer  1             -  -         -         an answer: side, answer, number, port (of HANDED_OVER and TAKEN), dashes
 *
 * Nothing is allocated, and only evtchn_fifo_trace_to_file, which a freestanding compilation leaves out, needs a C library. A trace may be
 * NULL: the calls are made and nothing is written.
 *
 * Order. The lines of a domain stand in the order in which things happened, or its replay differs. What happens at one moment stands
 * together: a call's start with its line and, where it names no access, its answer's; an access with its reply, its line and, where it
 * ends the call, the answer's; a mask's call, access and answer. The domain's lock keeps the hypervisor's moments apart, but nothing keeps
 * them and the guest's apart. So whoever records performs the accesses of both sides, and takes one lock more for each domain, the trace
 * lock, around each moment of either side by itself. It is taken inside the domain's lock, is given back between any two accesses, and is
 * for recording only: nothing else needs it. The functions below that make a moment take it, by the trace's lock and unlock; where one
 * thread does everything both are NULL. A recording may end after any moment: calls may be under way.
 *
 * What has no line:
 *   - a tell. The guest makes it as soon as an expand_array has added a page, before any other line of its own, with the array's number
 *     of words; a mask is given the same number.
 *   - a reply that is refused with EVTCHN_FIFO_NO_ENTRY. The access has its line once, with the reply that is accepted; all of this
 *     is one moment.
 *   - what a guest writes by itself. The replay differs at the first access that sees it.
 *
 * A replay begins with fresh records and a fresh ledger, a control block of zeros, and pages that are zeroed when they are added: so does
 * the recording, before the domain's first call. A replay supposes
 *   - a domain of 1,024 frames. Where it has another number, hand init_control and expand_array the frame 0 or 1,024, as the true one is
 *     below the true number or not, and 1,024 frames: the library compares the two and keeps neither;
 *   - a ledger of one length throughout;
 *   - arguments below 2^32. A larger one is written as 2^32 - 1, which gets the same refusal.
 */
#ifndef EVTCHN_FIFO_TRACE_H
#define EVTCHN_FIFO_TRACE_H

#include "evtchn_fifo_atomic.h"
#if __STDC_HOSTED__
#include <stdio.h>
#endif

#ifdef __cplusplus
extern "C" {
#endif

/* A line's buffer, in bytes. The longest line has 53. */
#define EVTCHN_FIFO_TRACE_LINE 64u

#define EVTCHN_FIFO_TRACE_HYPERVISOR 'X'
#define EVTCHN_FIFO_TRACE_GUEST 'G'

/* ---- parts of a line: each stands at a place of it, and gives the place behind ---- */

static inline size_t evtchn_fifo_line_text(char *line, size_t at, const char *text)
{
    while (*text != 0)
        line[at++] = *text++;
    return at;
}

/* Without leading zeros; a number above 2^32 - 1 as 2^32 - 1. */
static inline size_t evtchn_fifo_line_decimal(char *line, size_t at, uint64_t number)
{
    uint32_t value = number < 0xFFFFFFFFu ? (uint32_t)number : 0xFFFFFFFFu, unit = 1;
    while (value / unit >= 10)
        unit *= 10;
    for (; unit > 0; unit /= 10)
        line[at++] = (char)('0' + value / unit % 10);
    return at;
}

/* A tab, and eight upper-case hex digits, or a dash where there is no word. */
static inline size_t evtchn_fifo_line_word(char *line, size_t at, int is_there, uint32_t word)
{
    int shift;
    if (!is_there)
        return evtchn_fifo_line_text(line, at, "\t-");
    line[at++] = '\t';
    for (shift = 28; shift >= 0; shift -= 4)
        line[at++] = "0123456789ABCDEF"[word >> shift & 15u];
    return at;
}

static inline size_t evtchn_fifo_line_place(char *line, size_t at, unsigned place, uint32_t index)
{
    if (place == EVTCHN_FIFO_READY)
        return evtchn_fifo_line_text(line, at, "ready");
    line[at++] = place == EVTCHN_FIFO_WORD ? 'w' : 'h';
    return evtchn_fifo_line_decimal(line, at, index);
}

/* A call's line: what it begins with, its port, and two dashes. */
static inline size_t evtchn_fifo_line_of_port(char *line, const char *call, uint64_t port)
{
    size_t at = evtchn_fifo_line_decimal(line, evtchn_fifo_line_text(line, 0, call), port);
    return evtchn_fifo_line_text(line, at, "\t-\t-\n");
}

/* ---- whole lines ---- */

/*
 * Each is written to a buffer of EVTCHN_FIFO_TRACE_LINE bytes; its length is given back, the newline counted. No zero ends it. For a host
 * that performs its calls by itself; the functions further below write them with the calls.
 */

static inline size_t evtchn_fifo_line_header(char *line) { return evtchn_fifo_line_text(line, 0, "accesses\t1\n"); }

static inline size_t evtchn_fifo_line_init_control(char *line, uint64_t vcpu, uint64_t frame, uint64_t offset)
{
    size_t at = evtchn_fifo_line_decimal(line, evtchn_fifo_line_text(line, 0, "X\tcall\tinit_control\t"), vcpu);
    at = evtchn_fifo_line_decimal(line, evtchn_fifo_line_text(line, at, "\t"), frame);
    at = evtchn_fifo_line_decimal(line, evtchn_fifo_line_text(line, at, "\t"), offset);
    return evtchn_fifo_line_text(line, at, "\n");
}

static inline size_t evtchn_fifo_line_expand_array(char *line, uint64_t frame)
{
    size_t at = evtchn_fifo_line_decimal(line, evtchn_fifo_line_text(line, 0, "X\tcall\texpand_array\t-\t"), frame);
    return evtchn_fifo_line_text(line, at, "\t-\n");
}

static inline size_t evtchn_fifo_line_set_priority(char *line, uint64_t port, uint64_t priority)
{
    size_t at = evtchn_fifo_line_decimal(line, evtchn_fifo_line_text(line, 0, "X\tcall\tset_priority\t"), port);
    at = evtchn_fifo_line_decimal(line, evtchn_fifo_line_text(line, at, "\t"), priority);
    return evtchn_fifo_line_text(line, at, "\t-\n");
}

static inline size_t evtchn_fifo_line_bind(char *line, uint64_t port) { return evtchn_fifo_line_of_port(line, "X\tcall\tbind\t", port); }
static inline size_t evtchn_fifo_line_close(char *line, uint64_t port) { return evtchn_fifo_line_of_port(line, "X\tcall\tclose\t", port); }
static inline size_t evtchn_fifo_line_raise(char *line, uint64_t port) { return evtchn_fifo_line_of_port(line, "X\tcall\traise\t", port); }
static inline size_t evtchn_fifo_line_unmask(char *line, uint64_t port)
{
    return evtchn_fifo_line_of_port(line, "X\tcall\tunmask\t", port);
}

static inline size_t evtchn_fifo_line_service(char *line) { return evtchn_fifo_line_text(line, 0, "G\tcall\tservice\t-\t-\t-\n"); }
static inline size_t evtchn_fifo_line_mask(char *line, uint64_t port) { return evtchn_fifo_line_of_port(line, "G\tcall\tmask\t", port); }
static inline size_t evtchn_fifo_line_clear_mask(char *line, uint64_t port)
{
    return evtchn_fifo_line_of_port(line, "G\tcall\tclear_mask\t", port);
}

/* An access of a side (X or G) with the word seen, which a store has none of; 0 and no line where next is no access. */
static inline size_t evtchn_fifo_line_access(char *line, char side, evtchn_fifo_next next, uint32_t seen)
{
    static const char *const kinds[] = {"\tread\t", "\tstore\t", "\tor\t", "\tand\t", "\tswap\t", "\tcas\t"};
    unsigned kind = evtchn_fifo_kind_of(next), place = evtchn_fifo_place_of(next);
    size_t at;
    if (!evtchn_fifo_is_access(next) || kind > EVTCHN_FIFO_CAS || place > EVTCHN_FIFO_HEAD)
        return 0;
    line[0] = side;
    at = evtchn_fifo_line_text(line, 1, kinds[kind]);
    at = evtchn_fifo_line_place(line, at, place, next.index);
    at = evtchn_fifo_line_word(line, at, kind == EVTCHN_FIFO_CAS, next.old);
    at = evtchn_fifo_line_word(line, at, kind != EVTCHN_FIFO_READ, next.value);
    at = evtchn_fifo_line_word(line, at, kind != EVTCHN_FIFO_STORE, seen);
    return evtchn_fifo_line_text(line, at, "\n");
}

/* An answer of a side's call; 0 and no line where next is an access. */
static inline size_t evtchn_fifo_line_answer(char *line, char side, evtchn_fifo_next next)
{
    size_t at;
    if (evtchn_fifo_is_access(next))
        return 0;
    line[0] = side;
    at = evtchn_fifo_line_decimal(line, evtchn_fifo_line_text(line, 1, "\tanswer\t"), next.code);
    at = evtchn_fifo_line_text(line, at, "\t");
    if (next.code == EVTCHN_FIFO_HANDED_OVER || next.code == EVTCHN_FIFO_TAKEN)
        at = evtchn_fifo_line_decimal(line, at, next.index);
    else
        at = evtchn_fifo_line_text(line, at, "-");
    return evtchn_fifo_line_text(line, at, "\t-\t-\n");
}

/* ---- a trace ---- */

/* Where the lines of one domain go. */
typedef struct evtchn_fifo_trace {
    void (*write)(void *context, const char *line, size_t length); /* takes a line; its bytes are there until it returns */
    void (*lock)(void *context);   /* takes the trace lock; NULL: there is none */
    void (*unlock)(void *context); /* gives it back; NULL: there is none */
    void *context;                 /* handed to all three */
    char line[EVTCHN_FIFO_TRACE_LINE];
} evtchn_fifo_trace;

#if __STDC_HOSTED__
/* The write of a trace whose context is a FILE. Its ferror tells whether lines are missing. */
static inline void evtchn_fifo_trace_to_file(void *file, const char *line, size_t length) { (void)fwrite(line, 1, length, (FILE *)file); }
#endif

static inline void evtchn_fifo_trace_lock(evtchn_fifo_trace *trace)
{
    if (trace != NULL && trace->lock != NULL)
        trace->lock(trace->context);
}

static inline void evtchn_fifo_trace_unlock(evtchn_fifo_trace *trace)
{
    if (trace != NULL && trace->unlock != NULL)
        trace->unlock(trace->context);
}

/* Hands over the line in the trace's buffer, unless its length is 0. */
static inline void evtchn_fifo_trace_write(evtchn_fifo_trace *trace, size_t length)
{
    if (length > 0)
        trace->write(trace->context, trace->line, length);
}

/* The first line; before the domain's first call. */
static inline void evtchn_fifo_trace_header(evtchn_fifo_trace *trace)
{
    if (trace != NULL)
        evtchn_fifo_trace_write(trace, evtchn_fifo_line_header(trace->line));
}

/* A call's line, which is in the buffer, and the answer's where the call's start came to one. */
static inline void evtchn_fifo_trace_started(evtchn_fifo_trace *trace, char side, size_t length, evtchn_fifo_next next)
{
    evtchn_fifo_trace_write(trace, length);
    evtchn_fifo_trace_write(trace, evtchn_fifo_line_answer(trace->line, side, next));
}

/* An access's line, and the answer's where its reply came to one. */
static inline void evtchn_fifo_trace_made(evtchn_fifo_trace *trace, char side, evtchn_fifo_next access, uint32_t seen,
                                          evtchn_fifo_next next)
{
    evtchn_fifo_trace_write(trace, evtchn_fifo_line_access(trace->line, side, access, seen));
    evtchn_fifo_trace_write(trace, evtchn_fifo_line_answer(trace->line, side, next));
}

/* ---- starts: those of evtchn_fifo.h, each a moment with its lines ---- */

EVTCHN_FIFO_USED static inline evtchn_fifo_next evtchn_fifo_trace_init_control(evtchn_fifo_trace *trace, evtchn_fifo_domain *domain,
                                                                               uint64_t vcpu, uint64_t frame, uint64_t frames,
                                                                               uint64_t offset)
{
    evtchn_fifo_next next;
    evtchn_fifo_trace_lock(trace);
    next = evtchn_fifo_domain_init_control(domain, vcpu, frame, frames, offset);
    if (trace != NULL)
        evtchn_fifo_trace_started(trace, EVTCHN_FIFO_TRACE_HYPERVISOR, evtchn_fifo_line_init_control(trace->line, vcpu, frame, offset),
                                  next);
    evtchn_fifo_trace_unlock(trace);
    return next;
}

/* The tell is the guest's to make, if this answers 0. */
EVTCHN_FIFO_USED static inline evtchn_fifo_next evtchn_fifo_trace_expand_array(evtchn_fifo_trace *trace, evtchn_fifo_domain *domain,
                                                                               uint64_t frame, uint64_t frames)
{
    evtchn_fifo_next next;
    evtchn_fifo_trace_lock(trace);
    next = evtchn_fifo_domain_expand_array(domain, frame, frames);
    if (trace != NULL)
        evtchn_fifo_trace_started(trace, EVTCHN_FIFO_TRACE_HYPERVISOR, evtchn_fifo_line_expand_array(trace->line, frame), next);
    evtchn_fifo_trace_unlock(trace);
    return next;
}

EVTCHN_FIFO_USED static inline evtchn_fifo_next evtchn_fifo_trace_bind(evtchn_fifo_trace *trace, evtchn_fifo_domain *domain,
                                                                       uint16_t *ledger, size_t entries, uint64_t port)
{
    evtchn_fifo_next next;
    evtchn_fifo_trace_lock(trace);
    next = evtchn_fifo_domain_bind(domain, ledger, entries, port);
    if (trace != NULL)
        evtchn_fifo_trace_started(trace, EVTCHN_FIFO_TRACE_HYPERVISOR, evtchn_fifo_line_bind(trace->line, port), next);
    evtchn_fifo_trace_unlock(trace);
    return next;
}

EVTCHN_FIFO_USED static inline evtchn_fifo_next evtchn_fifo_trace_close(evtchn_fifo_trace *trace, evtchn_fifo_domain *domain,
                                                                        uint16_t *ledger, size_t entries, uint64_t port)
{
    evtchn_fifo_next next;
    evtchn_fifo_trace_lock(trace);
    next = evtchn_fifo_domain_close(domain, ledger, entries, port);
    if (trace != NULL)
        evtchn_fifo_trace_started(trace, EVTCHN_FIFO_TRACE_HYPERVISOR, evtchn_fifo_line_close(trace->line, port), next);
    evtchn_fifo_trace_unlock(trace);
    return next;
}

EVTCHN_FIFO_USED static inline evtchn_fifo_next evtchn_fifo_trace_set_priority(evtchn_fifo_trace *trace, evtchn_fifo_domain *domain,
                                                                               uint16_t *ledger, size_t entries, uint64_t port,
                                                                               uint64_t priority)
{
    evtchn_fifo_next next;
    evtchn_fifo_trace_lock(trace);
    next = evtchn_fifo_domain_set_priority(domain, ledger, entries, port, priority);
    if (trace != NULL)
        evtchn_fifo_trace_started(trace, EVTCHN_FIFO_TRACE_HYPERVISOR, evtchn_fifo_line_set_priority(trace->line, port, priority), next);
    evtchn_fifo_trace_unlock(trace);
    return next;
}

EVTCHN_FIFO_USED static inline evtchn_fifo_next evtchn_fifo_trace_raise(evtchn_fifo_trace *trace, evtchn_fifo_domain *domain,
                                                                        uint16_t *ledger, size_t entries, uint64_t port)
{
    evtchn_fifo_next next;
    evtchn_fifo_trace_lock(trace);
    next = evtchn_fifo_domain_raise(domain, ledger, entries, port);
    if (trace != NULL)
        evtchn_fifo_trace_started(trace, EVTCHN_FIFO_TRACE_HYPERVISOR, evtchn_fifo_line_raise(trace->line, port), next);
    evtchn_fifo_trace_unlock(trace);
    return next;
}

EVTCHN_FIFO_USED static inline evtchn_fifo_next evtchn_fifo_trace_unmask(evtchn_fifo_trace *trace, evtchn_fifo_domain *domain,
                                                                         uint16_t *ledger, size_t entries, uint64_t port)
{
    evtchn_fifo_next next;
    evtchn_fifo_trace_lock(trace);
    next = evtchn_fifo_domain_unmask(domain, ledger, entries, port);
    if (trace != NULL)
        evtchn_fifo_trace_started(trace, EVTCHN_FIFO_TRACE_HYPERVISOR, evtchn_fifo_line_unmask(trace->line, port), next);
    evtchn_fifo_trace_unlock(trace);
    return next;
}

EVTCHN_FIFO_USED static inline evtchn_fifo_next evtchn_fifo_trace_service(evtchn_fifo_trace *trace, evtchn_fifo_guest *guest)
{
    evtchn_fifo_next next;
    evtchn_fifo_trace_lock(trace);
    next = evtchn_fifo_guest_service(guest);
    if (trace != NULL)
        evtchn_fifo_trace_started(trace, EVTCHN_FIFO_TRACE_GUEST, evtchn_fifo_line_service(trace->line), next);
    evtchn_fifo_trace_unlock(trace);
    return next;
}

/* Its accesses are the guest's, as a service's are: evtchn_fifo_trace_guest_run brings it to its answer. */
EVTCHN_FIFO_USED static inline evtchn_fifo_next evtchn_fifo_trace_clear_mask(evtchn_fifo_trace *trace, evtchn_fifo_guest *guest,
                                                                             uint64_t port)
{
    evtchn_fifo_next next;
    evtchn_fifo_trace_lock(trace);
    next = evtchn_fifo_guest_clear_mask(guest, port);
    if (trace != NULL)
        evtchn_fifo_trace_started(trace, EVTCHN_FIFO_TRACE_GUEST, evtchn_fifo_line_clear_mask(trace->line, port), next);
    evtchn_fifo_trace_unlock(trace);
    return next;
}

/* ---- a mask, whole ---- */

/* The line of a mask that is refused, or of one whose access was made, with that access's. */
static inline void evtchn_fifo_trace_masked(evtchn_fifo_trace *trace, uint64_t port, evtchn_fifo_next named, uint32_t seen,
                                            evtchn_fifo_next answer)
{
    evtchn_fifo_trace_write(trace, evtchn_fifo_line_mask(trace->line, port));
    evtchn_fifo_trace_made(trace, EVTCHN_FIFO_TRACE_GUEST, named, seen, answer);
}

/*
 * A mask with its access, at one moment: its refusal, or 0 with the count 1. An access that is not mapped comes back unperformed, as if
 * the mask had not been.
 */
EVTCHN_FIFO_USED static inline evtchn_fifo_next evtchn_fifo_trace_mask(evtchn_fifo_trace *trace, const evtchn_fifo_shared *shared,
                                                                       uint64_t port, uint64_t words)
{
    static const evtchn_fifo_next done = {EVTCHN_FIFO_DONE, 0, 1, 0};
    evtchn_fifo_next named = evtchn_fifo_mask(port, words), answer = named;
    uint32_t seen = 0;
    evtchn_fifo_trace_lock(trace);
    if (evtchn_fifo_perform(shared, named, &seen))
        answer = done;
    if (trace != NULL && !evtchn_fifo_is_access(answer))
        evtchn_fifo_trace_masked(trace, port, named, seen, answer);
    evtchn_fifo_trace_unlock(trace);
    return answer;
}

/* ---- replies: for a host that performs accesses by itself, and takes the trace lock around access and reply ---- */

/* The reply to an access that was made, and their lines; no line where it is refused with NO_ENTRY. */
EVTCHN_FIFO_USED static inline evtchn_fifo_next evtchn_fifo_trace_reply(evtchn_fifo_trace *trace, evtchn_fifo_domain *domain,
                                                                        uint16_t *ledger, size_t entries, evtchn_fifo_next access,
                                                                        uint32_t seen)
{
    evtchn_fifo_next next = evtchn_fifo_domain_reply(domain, ledger, entries, seen);
    if (trace != NULL && next.code != EVTCHN_FIFO_NO_ENTRY)
        evtchn_fifo_trace_made(trace, EVTCHN_FIFO_TRACE_HYPERVISOR, access, seen, next);
    return next;
}

/* The same for a service or a clear_mask. */
EVTCHN_FIFO_USED static inline evtchn_fifo_next evtchn_fifo_trace_service_reply(evtchn_fifo_trace *trace, evtchn_fifo_guest *guest,
                                                                                evtchn_fifo_next access, uint32_t seen)
{
    evtchn_fifo_next next = evtchn_fifo_guest_service_reply(guest, seen);
    if (trace != NULL)
        evtchn_fifo_trace_made(trace, EVTCHN_FIFO_TRACE_GUEST, access, seen, next);
    return next;
}

/* ---- one access of a call, and calls to their answer ---- */

/*
 * Performs the access next, hands back the word seen, and writes the lines, at one moment; next becomes what the reply came to. 0, and
 * nothing is done, where next is no access or is not mapped. The ledger has no fewer entries than at the call's start, so that no reply is
 * refused with NO_ENTRY.
 */
static inline int evtchn_fifo_trace_domain_step(evtchn_fifo_trace *trace, evtchn_fifo_domain *domain, uint16_t *ledger, size_t entries,
                                                const evtchn_fifo_shared *shared, evtchn_fifo_next *next, uint32_t *seen)
{
    int performed;
    evtchn_fifo_trace_lock(trace);
    performed = evtchn_fifo_perform(shared, *next, seen);
    if (performed)
        *next = evtchn_fifo_trace_reply(trace, domain, ledger, entries, *next, *seen);
    evtchn_fifo_trace_unlock(trace);
    return performed;
}

/* The same for a service or a clear_mask. */
static inline int evtchn_fifo_trace_guest_step(evtchn_fifo_trace *trace, evtchn_fifo_guest *guest, const evtchn_fifo_shared *shared,
                                               evtchn_fifo_next *next, uint32_t *seen)
{
    int performed;
    evtchn_fifo_trace_lock(trace);
    performed = evtchn_fifo_perform(shared, *next, seen);
    if (performed)
        *next = evtchn_fifo_trace_service_reply(trace, guest, *next, *seen);
    evtchn_fifo_trace_unlock(trace);
    return performed;
}

/* evtchn_fifo_domain_run, with its lines: from what a call's start named to the answer, or to an access that is not mapped. */
EVTCHN_FIFO_USED static inline evtchn_fifo_next evtchn_fifo_trace_domain_run(evtchn_fifo_trace *trace, evtchn_fifo_domain *domain,
                                                                             uint16_t *ledger, size_t entries,
                                                                             const evtchn_fifo_shared *shared, evtchn_fifo_next next)
{
    uint32_t seen;
    while (evtchn_fifo_is_access(next) && evtchn_fifo_trace_domain_step(trace, domain, ledger, entries, shared, &next, &seen))
        continue;
    return next;
}

/* evtchn_fifo_guest_run, with its lines. */
EVTCHN_FIFO_USED static inline evtchn_fifo_next evtchn_fifo_trace_guest_run(evtchn_fifo_trace *trace, evtchn_fifo_guest *guest,
                                                                            const evtchn_fifo_shared *shared, evtchn_fifo_next next)
{
    uint32_t seen;
    while (evtchn_fifo_is_access(next) && evtchn_fifo_trace_guest_step(trace, guest, shared, &next, &seen))
        continue;
    return next;
}

#ifdef __cplusplus
}
#endif

#endif
