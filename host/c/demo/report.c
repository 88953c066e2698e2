/* The tables of a run. */
#include <inttypes.h>
#include <stdio.h>

#include "numbers.h"
#include "report.h"
#include "sums.h"

/* The bound that was asked of a raise or unmask where the guest keeps the rules. */
#define ASKED_WITH_RULES_KEPT 11u

/* The shortest raise that links its port. */
#define SHORTEST_LINKING 4u

static void print_group(const char *name, const sums *s, bool keeps_rules, double seconds)
{
    printf("%-10s", name);
    print_number(s->domains, 8);
    print_number(s->raises, 13);
    print_number(s->hand_overs, 13);
    print_number(s->coalesced, 13);
    if (keeps_rules) {
        print_number(s->closed, 9);
        print_fault(s->lost, 6);
        print_fault(s->doubled, 8);
        print_fault(s->abandoned, 10);
    } else {
        printf("%9s%6s%8s", "-", "-", "-");
        print_number(s->abandoned, 10);
    }
    print_number(s->longest, 8);
    print_number((uint64_t)((double)s->hand_overs / seconds), 11);
    printf("\n");
}

static void report_events(const host *h, double seconds)
{
    int c;
    printf("%-10s%8s%13s%13s%13s%9s%6s%8s%10s%8s%11s\n", "guests", "domains", "raises", "hand-overs", "coalesced", "closed", "lost",
           "doubled", "abandoned", "longest", "events/s");
    for (c = 0; c < CONDUCTS; c++) {
        sums s = sums_of(h, (conduct)c);
        if (s.domains > 0)
            print_group(conduct_names[c], &s, c != HOSTILE, seconds);
    }
    printf("\nRaises are hand-overs, coalesced and closed (a close found the event pending).\n"
           "What a hostile guest loses is its own.\n");
}

/* ---- lengths ---- */

static void print_bound(const char *call, uint32_t longest, uint32_t proved, uint32_t asked)
{
    printf("%-18s", call);
    print_number(longest, 13);
    print_number(proved, 13);
    print_number(asked, 13);
    printf("\n");
}

static void report_bounds(const host *h)
{
    uint32_t call = 0, service = 0;
    int c;
    for (c = 0; c < CONDUCTS; c++) {
        sums s = sums_of(h, (conduct)c);
        call = larger(call, c != HOSTILE ? s.longest : 0);
        service = larger(service, c != HOSTILE ? s.longest_service : 0);
    }
    printf("\n%-18s%13s%13s%13s\n", "rules kept", "longest seen", "proved", "asked");
    print_bound("raise or unmask", call, MOST_WITH_RULES_KEPT, ASKED_WITH_RULES_KEPT);
    print_bound("service", service, MOST_OF_A_SERVICE, MOST_OF_A_SERVICE);
    printf("\nAccesses of one call, where the guest keeps the rules: most seen, most proved possible, the bound asked.\n");
}

/* A column is wide where many raises have its length. */
static int length_width(uint32_t length) { return length <= 5 ? 12 : 8; }

static void print_lengths(const char *name, const sums *s)
{
    uint64_t short_ones = 0;
    uint32_t k;
    for (k = 0; k < SHORTEST_LINKING; k++)
        short_ones += s->lengths[k];
    printf("%-10s", name);
    print_number(short_ones, 12);
    for (; k <= MOST_ACCESSES; k++)
        print_number(s->lengths[k], length_width(k));
    printf("\n");
}

static void report_lengths(const host *h)
{
    uint32_t k;
    int c;
    printf("\n%-10s%12s", "accesses", "1 to 3");
    for (k = SHORTEST_LINKING; k <= MOST_ACCESSES; k++)
        printf("%*u", length_width(k), (unsigned)k);
    printf("\n");
    for (c = 0; c < CONDUCTS; c++) {
        sums s = sums_of(h, (conduct)c);
        if (s.domains > 0)
            print_lengths(conduct_names[c], &s);
    }
    printf("\nHow many raises and unmasks made so many accesses. The two sides of a contested domain wait for each other.\n");
}

/* ---- masks and cables ---- */

/* What follows the row's name: so many unmasks and calls, and the share of the unmasks that needed none. */
static void print_unmasks(uint64_t unmasks, uint64_t calls)
{
    print_number(unmasks, 13);
    print_number(calls, 13);
    print_number((unmasks - calls) * 100 / unmasks, 24);
    printf(" %%\n");
}

/* Beside the unmasks of masking guests, what as many come to where each is a call. */
static void report_unmasks(const host *h)
{
    sums s = sums_of(h, MASKING);
    if (s.unmasks == 0)
        return;
    printf("\n%-10s%8s%13s%13s%26s\n", "guests", "domains", "unmasks", "calls", "unmasks without a call");
    printf("%-10s", conduct_names[MASKING]);
    print_number(s.domains, 8);
    print_unmasks(s.unmasks, s.calls);
    printf("%-18s", "without clear_mask");
    print_unmasks(s.unmasks, s.unmasks);
    printf("\nA masking guest unmasks by clear_mask and calls unmask only on 35; without clear_mask each unmask is a call.\n");
}

static void print_cables(const char *name, const sums *s)
{
    printf("%-10s", name);
    print_number(s->joined, 8);
    print_number(s->sent, 13);
    print_number(s->received, 13);
    print_number(s->refused, 13);
    print_number(s->laid, 13);
    print_number(s->cut, 13);
    printf("\n");
}

static void report_cables(const host *h)
{
    int c;
    printf("\n%-10s%8s%13s%13s%13s%13s%13s\n", "guests", "joined", "sent", "received", "refused", "cables laid", "cut by close");
    for (c = 0; c < CONDUCTS; c++) {
        sums s = sums_of(h, (conduct)c);
        if (s.joined > 0)
            print_cables(conduct_names[c], &s);
    }
    printf("\nA send is a raise of the port at the cable's other end, and is counted as one. Refused: no cable just then.\n");
}

void report_tables(const host *h, double seconds)
{
    report_events(h, seconds);
    report_bounds(h);
    report_lengths(h);
    report_unmasks(h);
    if (h->count > 1)
        report_cables(h);
}

void report_verdict(const host *h, bool holds)
{
    uint64_t lost = 0, doubled = 0;
    int c;
    for (c = 0; c < CONDUCTS; c++) {
        sums s = sums_of(h, (conduct)c);
        lost += c != HOSTILE ? s.lost : 0;
        doubled += c != HOSTILE ? s.doubled : 0;
    }
    printf("\n%s", colour_if(!holds, RED));
    if (holds)
        printf("Every claim holds.");
    else
        printf("A claim FAILS. Of guests that keep the rules %" PRIu64 " events were lost and %" PRIu64 " doubled.", lost, doubled);
    printf("%s\n", colour_if(!holds, PLAIN_COLOUR));
}
