/*
 * demo SECONDS DOMAINS [GUEST FILE]: one host with many domains, joined in pairs by cables, in threads over real atomics. Prints the log
 * of one raise, runs for some seconds, prints tables and the longest contested raise, shows a backlog served and the fence on one thread,
 * and ends with the claims that it checked. Exit status 0 if all hold, 1 if one fails, 2 if it can't run. With GUEST (plain, masking,
 * reopening, hostile or contested) the log of the first domain with such a guest is written to FILE.
 */
#include <errno.h>
#include <inttypes.h>
#include <stdio.h>
#include <stdlib.h>
#include <string.h>

#include "backlog.h"
#include "cables.h"
#include "claims.h"
#include "clock.h"
#include "fence.h"
#include "raise.h"
#include "recording.h"
#include "report.h"
#include "view.h"
#include "watch.h"

#define HYPERVISOR_THREADS 4u

static void fail(const char *text)
{
    fprintf(stderr, "demo: %s\n", text);
    exit(2);
}

static void fail_at(const char *file, const char *text)
{
    fprintf(stderr, "demo: %s: %s\n", file, text);
    exit(2);
}

/* The threads of a run. */
typedef struct crew {
    pthread_t hypervisor[HYPERVISOR_THREADS], guest[MOST_DOMAINS], writer[MOST_DOMAINS];
    hypervisor_thread hypervisors[HYPERVISOR_THREADS];
    guest_thread guests[MOST_DOMAINS];
} crew;

static void start(pthread_t *thread, void *(*run)(void *), void *argument)
{
    if (pthread_create(thread, NULL, run, argument) != 0)
        fail("a thread can't be started: try fewer DOMAINS");
}

static void start_all(crew *c, host *h)
{
    uint32_t k;
    if (pthread_barrier_init(&h->guests_ended, NULL, h->count) != 0)
        fail("no memory for the guests' barrier");
    for (k = 0; k < h->count; k++) {
        bool hostile = h->domains[k].conduct == HOSTILE;
        c->guests[k] = (guest_thread){&h->domains[k], h, 0};
        start(&c->guest[k], hostile ? hostile_run : guest_run, &c->guests[k]);
        if (hostile)
            start(&c->writer[k], hostile_write_run, &c->guests[k]);
    }
    for (k = 0; k < HYPERVISOR_THREADS; k++) {
        c->hypervisors[k] = (hypervisor_thread){h, 1000 + k, k == 0 && h->count >= CONDUCTS};
        start(&c->hypervisor[k], hypervisor_run, &c->hypervisors[k]);
    }
}

/* No more raises and sends, then no more upcalls: guests serve what is left and end. */
static void end_all(crew *c, host *h)
{
    uint32_t k;
    atomic_store(&h->stopped, true);
    for (k = 0; k < HYPERVISOR_THREADS; k++)
        pthread_join(c->hypervisor[k], NULL);
    for (k = 0; k < h->count; k++)
        upcall_stop(&h->domains[k].upcall);
    for (k = 0; k < h->count; k++) {
        pthread_join(c->guest[k], NULL);
        if (h->domains[k].conduct == HOSTILE)
            pthread_join(c->writer[k], NULL);
    }
}

/* Of five domains one is of each conduct. */
static const conduct conducts[CONDUCTS] = {PLAIN, MASKING, REOPENING, HOSTILE, CONTESTED};

/* What the arguments say. */
typedef struct settings {
    unsigned seconds, count;
    const char *file;  /* of the log; NULL: none is written */
    uint32_t recorded; /* the domain whose log it is */
} settings;

/* Where the lines of domains go. */
typedef struct logs {
    recording recording;
    watch watches[MOST_DOMAINS];
    uint32_t watched;
} logs;

/* Of the recorded domain to its file; of every other contested one to a watch. */
static evtchn_fifo_trace *trace_of(logs *l, const settings *s, uint32_t domain)
{
    if (s->file != NULL && domain == s->recorded)
        return &l->recording.trace;
    if (conducts[domain % CONDUCTS] != CONTESTED)
        return NULL;
    watch_begin(&l->watches[l->watched], domain);
    return &l->watches[l->watched++].trace;
}

static void begin_domains(host *h, const settings *s, logs *l)
{
    uint32_t k;
    h->count = s->count;
    h->domains = calloc(s->count, sizeof *h->domains);
    if (h->domains == NULL)
        fail("no memory for the domains");
    if (s->file != NULL && !recording_begin(&l->recording, s->file))
        fail_at(s->file, strerror(errno));
    for (k = 0; k < s->count; k++)
        if (!domain_begin(&h->domains[k], k, conducts[k % CONDUCTS], &h->cables, trace_of(l, s, k)))
            fail("a domain's first calls were refused");
    if (!cables_begin(h))
        fail("the first cables were refused");
}

static void end_recording(const settings *s, recording *r)
{
    if (s->file == NULL)
        return;
    if (!recording_end(r))
        fail_at(s->file, "the log could not be written whole");
    printf("%" PRIu64 " lines of the log of a %s guest's domain are in %s.\n\n", r->lines, conduct_names[conducts[s->recorded]], s->file);
}

static unsigned number(const char *text, const char *name, unsigned most)
{
    char *end;
    unsigned long value = strtoul(text, &end, 10);
    if (*text < '0' || *text > '9' || *end != 0 || value < 1 || value > most) {
        fprintf(stderr, "demo: %s must be a number from 1 to %u, it is '%s'\n", name, most, text);
        exit(2);
    }
    return (unsigned)value;
}

/* The first of the domains whose guest is of that name. */
static uint32_t first_with(const char *guest, unsigned count)
{
    uint32_t k;
    for (k = 0; k < count && k < CONDUCTS; k++)
        if (strcmp(conduct_names[conducts[k]], guest) == 0)
            return k;
    fprintf(stderr, "demo: of %u domains none has a guest that is '%s'; of five there are plain, masking, reopening, hostile and contested\n",
            count, guest);
    exit(2);
}

static settings read_arguments(int words, char **word)
{
    settings s = {0, 0, NULL, 0};
    if (words != 3 && words != 5)
        fail("use: demo SECONDS DOMAINS [GUEST FILE]");
    s.seconds = number(word[1], "SECONDS", 3600);
    s.count = number(word[2], "DOMAINS", MOST_DOMAINS);
    if (words == 5) {
        s.recorded = first_with(word[3], s.count);
        s.file = word[4];
    }
    return s;
}

/* The run itself: its seconds. */
static double run(host *h, unsigned seconds)
{
    static crew c;
    double begun = now(), elapsed;
    printf("%u domains, %u threads of the hypervisor's, a thread for each guest, one more for each hostile guest:\n\n", h->count,
           HYPERVISOR_THREADS);
    fflush(stdout);
    start_all(&c, h);
    view_run(h, begun, seconds);
    elapsed = now() - begun;
    end_all(&c, h);
    return elapsed;
}

int main(int words, char **word)
{
    static host h;
    static logs l;
    settings s = read_arguments(words, word);
    bool as_ruled = raise_show(), in_turn, fenced, holds;
    double elapsed;
    begin_domains(&h, &s, &l);
    elapsed = run(&h, s.seconds);
    end_recording(&s, &l.recording);
    report_tables(&h, elapsed);
    watch_show(l.watches, l.watched);
    in_turn = backlog_show();
    fenced = fence_show();
    printf("\n");
    holds = claim_show("all", "a raise on an empty queue sets PENDING, LINKED, HEAD and READY in turn", !as_ruled);
    holds = claim_show("rules kept", "the k-th service takes the k-th port of the backlog, within 5 k accesses", !in_turn) && holds;
    holds = claim_show("others", "nothing that is heard of them tells what one domain's words hold", !fenced) && holds;
    holds = claims_show(&h) && holds;
    report_verdict(&h, holds);
    return holds ? 0 : 1;
}
