/* The locks of cables: the cable lock first, which a send shares and has until the far domain's raise has started, then the domains'. */
#include "cables.h"

/* Cables between the two domains of a pair. */
#define CABLES (PORTS / 2)

static evtchn_cables_end end_of(const domain *d, uint32_t port)
{
    return (evtchn_cables_end){&d->record, d->ledger, WORDS, d->number, port};
}

static void lock_both(domain *one, domain *other)
{
    bool in_order = one->number < other->number;
    pthread_mutex_lock(in_order ? &one->lock : &other->lock);
    pthread_mutex_lock(in_order ? &other->lock : &one->lock);
}

static void unlock_both(domain *one, domain *other)
{
    pthread_mutex_unlock(&one->lock);
    pthread_mutex_unlock(&other->lock);
}

uint32_t cables_lay(host *h, domain *near, uint32_t port)
{
    domain *far = near->partner;
    uint32_t far_port = near->joints[port].far_port;
    evtchn_cables_laid laid;
    pthread_rwlock_wrlock(&h->cable_lock);
    lock_both(near, far);
    laid = evtchn_cables_lay(&h->cables, end_of(near, port), end_of(far, far_port));
    domain_count_refusal(near, laid.code);
    unlock_both(near, far);
    if (laid.code == EVTCHN_FIFO_DONE) {
        near->joints[port].hint = far->joints[far_port].hint = laid.slot;
        near->cable_tally.laid++;
    }
    pthread_rwlock_unlock(&h->cable_lock);
    return laid.code;
}

evtchn_cables_far cables_far(const domain *near, uint32_t port)
{
    return evtchn_cables_send(near->cables, end_of(near, port), near->joints[port].hint);
}

/* The first half of a send; the cable lock is held. */
static evtchn_cables_far start_send(domain *near, uint32_t port)
{
    evtchn_cables_far far;
    pthread_mutex_lock(&near->lock);
    far = cables_far(near, port);
    if (far.code == EVTCHN_FIFO_DONE)
        near->accounts[port].sent++;
    else
        near->cable_tally.refused++;
    domain_count_refusal(near, far.code);
    pthread_mutex_unlock(&near->lock);
    return far;
}

/* The second half: the cable lock is held, and is given back when the raise has started. */
static uint32_t raise_far(host *h, evtchn_cables_far far)
{
    domain *d = &h->domains[far.domain];
    evtchn_fifo_next next;
    pthread_mutex_lock(&d->lock);
    next = evtchn_fifo_trace_raise(d->trace, &d->record, d->ledger, WORDS, far.port);
    pthread_rwlock_unlock(&h->cable_lock);
    if (evtchn_fifo_is_access(next))
        d->accounts[far.port].received++;
    return domain_finish(d, next);
}

/* A far end that there is not counts as sent and not as received, which the account shows. */
uint32_t cables_send(host *h, domain *near, uint32_t port)
{
    evtchn_cables_far far;
    pthread_rwlock_rdlock(&h->cable_lock);
    far = start_send(near, port);
    if (far.code == EVTCHN_FIFO_DONE && far.domain < h->count && far.port < WORDS)
        return raise_far(h, far);
    pthread_rwlock_unlock(&h->cable_lock);
    return far.code;
}

uint32_t cables_close(host *h, domain *d, uint32_t port)
{
    bool had_cable;
    uint32_t answer;
    pthread_rwlock_wrlock(&h->cable_lock);
    pthread_mutex_lock(&d->lock);
    had_cable = cables_far(d, port).code == EVTCHN_FIFO_DONE;
    pthread_mutex_unlock(&d->lock);
    answer = domain_close(d, port);
    if (had_cable && answer == EVTCHN_FIFO_DONE)
        d->cable_tally.cut++;
    pthread_rwlock_unlock(&h->cable_lock);
    return answer;
}

/* The first ports of the one are joined to the last of the other. */
static bool join(host *h, domain *one, domain *other)
{
    uint32_t k, refusals = EVTCHN_FIFO_DONE;
    one->partner = other;
    other->partner = one;
    for (k = 0; k < CABLES; k++) {
        uint32_t port = ports[k], far_port = ports[PORTS - 1 - k];
        one->joints[port].far_port = far_port;
        other->joints[far_port].far_port = port;
        refusals |= cables_lay(h, one, port);
    }
    return refusals == EVTCHN_FIFO_DONE;
}

/* Lays and closes come first: glibc's locks prefer whoever shares, and among so many sends a close would hardly ever find none. */
static void begin_lock(pthread_rwlock_t *lock)
{
    pthread_rwlockattr_t attributes;
    pthread_rwlockattr_init(&attributes);
#ifdef __GLIBC__
    pthread_rwlockattr_setkind_np(&attributes, PTHREAD_RWLOCK_PREFER_WRITER_NONRECURSIVE_NP);
#endif
    pthread_rwlock_init(lock, &attributes);
    pthread_rwlockattr_destroy(&attributes);
}

bool cables_begin(host *h)
{
    bool accepted = true;
    uint32_t k;
    begin_lock(&h->cable_lock);
    for (k = 0; k + 1 < h->count && k + 1 < EVTCHN_CABLES_DOMAINS; k += 2)
        accepted = join(h, &h->domains[k], &h->domains[k + 1]) && accepted;
    return accepted;
}
