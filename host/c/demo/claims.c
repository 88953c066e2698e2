/* Each claim about a run is a count of what speaks against it in a domain. */
#include <inttypes.h>
#include <stdio.h>

#include "cables.h"
#include "claims.h"
#include "colours.h"
#include "report.h"
#include "sums.h"

/* Of so many unmasks not each can need a call by chance. */
#define ENOUGH_UNMASKS 16u

typedef uint64_t against(const domain *d);

/* ports whose account does not agree */
static uint64_t wrong_accounts(const domain *d)
{
    uint64_t wrong = 0;
    uint32_t port;
    for (port = 0; port < WORDS; port++) {
        sums s = {0};
        add_port(&s, d, port);
        wrong += s.lost + s.doubled > 0;
    }
    return wrong;
}

/* joined ports whose sends are not what their partner's were raised by */
static uint64_t wrong_sends(const domain *d)
{
    uint64_t wrong = 0;
    uint32_t port;
    for (port = 0; port < WORDS; port++) {
        uint32_t far_port = d->joints[port].far_port;
        uint64_t received = far_port != 0 ? d->partner->accounts[far_port].received : 0;
        wrong += d->accounts[port].sent != received;
    }
    return wrong;
}

/* cables that neither stand nor were cut, or do both */
static uint64_t wrong_cables(const domain *d)
{
    uint64_t laid, cut, standing = 0;
    uint32_t port;
    if (d->partner == NULL)
        return d->cable_tally.laid + d->cable_tally.cut;
    for (port = 0; port < WORDS; port++) {
        evtchn_cables_far far = cables_far(d, port);
        standing += far.code == EVTCHN_FIFO_DONE && far.domain == d->partner->number && far.port == d->joints[port].far_port;
    }
    laid = d->cable_tally.laid + d->partner->cable_tally.laid;
    cut = d->cable_tally.cut + d->partner->cable_tally.cut;
    return laid > cut + standing ? laid - cut - standing : cut + standing - laid;
}

/* words that are LINKED, or PENDING and not MASKED, when the threads have ended */
static uint64_t left_behind(const domain *d)
{
    uint64_t left = 0;
    uint32_t port;
    for (port = 0; port < WORDS; port++) {
        uint32_t word = word_of(d, port);
        bool pending = (word & EVTCHN_FIFO_WORD_PENDING) != 0, masked = (word & EVTCHN_FIFO_WORD_MASKED) != 0;
        left += (word & EVTCHN_FIFO_WORD_LINKED) != 0 || (pending && !masked);
    }
    return left;
}

/* words that are MASKED or BUSY then: a guest unmasks all that it masked before it waits */
static uint64_t left_masked(const domain *d)
{
    uint64_t left = 0;
    uint32_t port;
    for (port = 0; port < WORDS; port++)
        left += (word_of(d, port) & (EVTCHN_FIFO_WORD_MASKED | EVTCHN_FIFO_WORD_BUSY)) != 0;
    return left;
}

static uint64_t nothing_sent(const domain *d)
{
    sums s = {0};
    add_domain(&s, d);
    return s.joined > 0 && (s.sent == 0 || s.received == 0);
}

static uint64_t nothing_handed_over(const domain *d) { return atomic_load(&d->hand_overs) == 0; }
static uint64_t always_calls(const domain *d) { return d->unmasks.without_call == 0 && d->unmasks.with_call >= ENOUGH_UNMASKS; }
static uint64_t abandoned(const domain *d) { return d->hypervisor.abandoned; }
static uint64_t bad_indices(const domain *d) { return d->guest.bad_index; }
static uint64_t long_raises(const domain *d) { return d->hypervisor.longest > MOST_WITH_RULES_KEPT; }
static uint64_t long_calls(const domain *d) { return d->hypervisor.longest > MOST_ACCESSES || d->guest.longest > MOST_OF_A_SERVICE; }
static uint64_t long_clear_masks(const domain *d) { return d->clear_masks.longest > MOST_OF_A_CLEAR_MASK; }
static uint64_t outside(const domain *d) { return d->hypervisor.outside + d->guest.outside + d->clear_masks.outside; }
static uint64_t miscounted(const domain *d) { return d->hypervisor.miscounted + d->guest.miscounted + d->clear_masks.miscounted; }
static uint64_t refused(const domain *d) { return d->hypervisor.refused + d->guest.refused + d->clear_masks.refused; }

static const struct claim {
    const char *text;
    against *against;
    bool of_hostile_too;
} claims[] = {
    {"each port's events are its hand-overs and those that a close found", wrong_accounts, false},
    {"at the end no port is linked, and what is pending is masked", left_behind, false},
    {"at the end no port is masked or BUSY", left_masked, false},
    {"each guest was handed events", nothing_handed_over, false},
    {"no masking guest needs a call for every unmask", always_calls, false},
    {"each guest that cables join to another sent, and was sent to", nothing_sent, false},
    {"each port's sends are raises of the port at its cable's other end, and none is refused", wrong_sends, true},
    {"each cable was cut by a close, or joins two bound ports at the end", wrong_cables, true},
    {"no link is abandoned (2)", abandoned, false},
    {"no service is refused an index (18)", bad_indices, false},
    {"no call makes more than ten accesses", long_raises, false},
    {"no call makes more than twelve accesses, no service more than five", long_calls, true},
    {"no clear_mask makes more than two accesses", long_clear_masks, true},
    {"no access is outside the array and the control block", outside, true},
    {"each answer's count is the number of accesses made", miscounted, true},
    {"no call is refused but for a port that is bound or not, still linked, joined or not", refused, true},
};

static uint64_t count_against(const host *h, const struct claim *claim)
{
    uint64_t count = 0;
    uint32_t k;
    for (k = 0; k < h->count; k++)
        if (claim->of_hostile_too || h->domains[k].conduct != HOSTILE)
            count += claim->against(&h->domains[k]);
    return count;
}

bool claim_show(const char *of, const char *text, uint64_t against)
{
    printf("%s%-6s %-11s %s", colour_if(against > 0, RED), against == 0 ? "holds" : "FAILS", of, text);
    if (against > 0)
        printf(" (%" PRIu64 " against it)", against);
    printf("%s\n", colour_if(against > 0, PLAIN_COLOUR));
    return against == 0;
}

bool claims_show(const host *h)
{
    bool all = true;
    size_t k;
    for (k = 0; k < sizeof claims / sizeof *claims; k++)
        all = claim_show(claims[k].of_hostile_too ? "all" : "rules kept", claims[k].text, count_against(h, &claims[k])) && all;
    return all;
}
