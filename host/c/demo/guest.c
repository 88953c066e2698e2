/* The guests' threads. An honest guest makes only the library's accesses; a hostile one writes anything anywhere in its pages. */
#include <sched.h>
#include <time.h>

#include "cables.h"
#include "random.h"

/* A masking guest masks one port in so many that it is handed. */
#define MASKS_ONE_IN 8u

/* A contested guest waits for an upcall when so many of its services found nothing. */
#define IDLE_SERVICES 8u

/* A guest sends on one port in so many that it is handed and that have a cable. */
#define SENDS_ONE_IN 2u

/* A hostile guest sends on any port after one service in so many. */
#define HOSTILE_SENDS_ONE_IN 8u

/* Services of a guest once no more is raised: a right library leaves far fewer to make. A wrong one may leave a ring of ports. */
#define MOST_LAST_SERVICES 1000u

/* A hostile guest's writes to one word between two pauses, and the nanoseconds of a pause with so many domains or fewer. */
#define WRITES 1000u
#define PAUSE 50000
#define USUAL_DOMAINS 40u

/* Ports that a guest has masked and wants unmasked before it waits. */
typedef struct masked_ports {
    uint32_t port[PORTS];
    uint32_t count;
} masked_ports;

static bool is_masked(const masked_ports *masked, uint32_t port)
{
    uint32_t k;
    for (k = 0; k < masked->count; k++)
        if (masked->port[k] == port)
            return true;
    return false;
}

static void mask(domain *d, masked_ports *masked, uint32_t port)
{
    if (is_masked(masked, port) || masked->count == PORTS)
        return;
    domain_mask(d, port);
    masked->port[masked->count++] = port;
}

/* A guest clears MASKED by itself, and asks for the hypervisor's unmask only where clear_mask gives 35. */
static void unmask(domain *d, uint32_t port)
{
    switch (domain_clear_mask(d, port)) {
    case EVTCHN_FIFO_DONE:
        d->unmasks.without_call++;
        break;
    case EVTCHN_FIFO_CALL_UNMASK:
        d->unmasks.with_call++;
        domain_unmask(d, port);
        break;
    default: break; /* a refusal, which is counted with its answer */
    }
}

static void unmask_last(domain *d, masked_ports *masked)
{
    if (masked->count > 0)
        unmask(d, masked->port[--masked->count]);
}

/* Unmasks the last port, and masks it at once. */
static void flip_last(domain *d, masked_ports *masked)
{
    uint32_t port;
    if (masked->count == 0)
        return;
    port = masked->port[masked->count - 1];
    unmask_last(d, masked);
    mask(d, masked, port);
}

static void unmask_all(domain *d, masked_ports *masked)
{
    while (masked->count > 0)
        unmask_last(d, masked);
}

/* A send is a call of the hypervisor's. The far guest may answer it by another, so that none is begun once the host is stopped. */
static void ask_for_send(guest_thread *self, uint32_t port)
{
    if (self->domain->partner != NULL && !atomic_load(&self->host->stopped))
        cables_send(self->host, self->domain, port);
}

/* What a guest does with a port that it is handed. */
static void take_event(guest_thread *self, uint32_t port, masked_ports *masked, uint64_t *random)
{
    domain *d = self->domain;
    if (d->conduct == CONTESTED || (d->conduct == MASKING && random_below(random, MASKS_ONE_IN) == 0))
        mask(d, masked, port);
    if (d->joints[port].far_port != 0 && random_below(random, SENDS_ONE_IN) == 0)
        ask_for_send(self, port);
}

static bool may_serve(guest_thread *self)
{
    self->last_services += atomic_load(&self->host->stopped);
    return self->last_services <= MOST_LAST_SERVICES;
}

/* One service: whether it took a port. */
static bool serve(guest_thread *self, masked_ports *masked, uint64_t *random)
{
    uint32_t port, answer = domain_service(self->domain, &port);
    if (answer == EVTCHN_FIFO_HANDED_OVER)
        take_event(self, port, masked, random);
    return answer == EVTCHN_FIFO_HANDED_OVER || answer == EVTCHN_FIFO_TAKEN;
}

static void serve_until_idle(guest_thread *self, masked_ports *masked, uint64_t *random)
{
    while (may_serve(self) && serve(self, masked, random))
        continue;
}

/* Services, masks and unmasks in any order, of ports that may stand: a raise that finds one as its queue's tail sees its word change. */
static void contest(guest_thread *self, masked_ports *masked, uint64_t *random)
{
    uint32_t idle = 0;
    while (!atomic_load(&self->host->stopped) && idle < IDLE_SERVICES)
        switch (random_below(random, 6)) {
        case 0: mask(self->domain, masked, ports[random_below(random, CONTESTED_PORTS)]); break;
        case 1: unmask_last(self->domain, masked); break;
        case 2: flip_last(self->domain, masked); break;
        default: idle += !serve(self, masked, random); break;
        }
}

static void serve_upcalls(guest_thread *self, uint64_t *random)
{
    atomic_bool *at_work = &self->domain->sides[GUEST].at_work;
    masked_ports masked = {{0}, 0};
    while (upcall_wait(&self->domain->upcall)) {
        atomic_store(at_work, true);
        if (self->domain->conduct == CONTESTED)
            contest(self, &masked, random);
        serve_until_idle(self, &masked, random);
        unmask_all(self->domain, &masked);
        atomic_store(at_work, false);
    }
}

/* What the other guests' last sends raised is served when all of them have ended. */
void *guest_run(void *argument)
{
    guest_thread *self = argument;
    uint64_t random = self->domain->seed;
    serve_upcalls(self, &random);
    pthread_barrier_wait(&self->host->guests_ended);
    serve_upcalls(self, &random);
    return NULL;
}

/* The longer the more domains there are: hostile guests' threads are always at work, and many of them would leave the others no time. */
static void pause_a_little(const host *h)
{
    struct timespec time = {0, PAUSE * (h->count < USUAL_DOMAINS ? 1 : h->count / USUAL_DOMAINS)};
    nanosleep(&time, NULL);
}

void *hostile_run(void *argument)
{
    guest_thread *self = argument;
    uint64_t random = self->domain->seed;
    uint32_t port;
    while (!atomic_load(&self->host->stopped)) {
        uint32_t answer = domain_service(self->domain, &port);
        if (random_below(&random, HOSTILE_SENDS_ONE_IN) == 0)
            ask_for_send(self, ports[random_below(&random, PORTS)]);
        if (answer == EVTCHN_FIFO_NOTHING_READY)
            pause_a_little(self->host);
    }
    pthread_barrier_wait(&self->host->guests_ended);
    return NULL;
}

static uint32_t *word_of(domain *d, uint32_t port) { return &d->array[port / EVTCHN_FIFO_PAGE_WORDS][port % EVTCHN_FIFO_PAGE_WORDS]; }

static void write_word(uint32_t *place, uint32_t word) { __atomic_store_n(place, word, __ATOMIC_SEQ_CST); }

/* Any word in any place of the control block and of the ports in use. */
static void write_anything(domain *d, uint64_t *random)
{
    uint32_t k;
    for (k = 0; k < EVTCHN_FIFO_CONTROL_WORDS; k++)
        write_word((uint32_t *)&d->control + k, random_word(random));
    for (k = 0; k < PORTS; k++)
        write_word(word_of(d, ports[k]), random_word(random));
}

/* All clear, so that raises go on to link, and then one word over and over, LINKED to another port each time: the worst for a cas. */
static void write_one_word(domain *d, uint64_t *random)
{
    uint32_t *word = word_of(d, ports[random_below(random, PORTS)]);
    uint32_t k;
    for (k = 0; k < PORTS; k++)
        write_word(word_of(d, ports[k]), 0);
    for (k = 0; k < WRITES; k++)
        write_word(word, EVTCHN_FIFO_WORD_LINKED | ports[k % PORTS]);
}

void *hostile_write_run(void *argument)
{
    guest_thread *self = argument;
    uint64_t random = self->domain->seed ^ 0x5DEECE66Du;
    while (!atomic_load(&self->host->stopped)) {
        if (random_below(&random, 4) == 0)
            write_anything(self->domain, &random);
        else
            write_one_word(self->domain, &random);
        pause_a_little(self->host);
    }
    return NULL;
}
