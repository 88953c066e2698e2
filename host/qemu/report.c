/* What was counted, in rows, and whether all holds. The account of a port: the times that PENDING went from clear to set are its
 * hand-overs, and the closes that found it set, and one if it is set and masked at the end. */
#include "domain.h"
#include "machine.h"

typedef struct sums {
    uint64_t raises, hand_overs, coalesced, closed, lost, doubled;
    uint64_t left; /* ports with a flag set, where the guest should have served and unmasked all */
} sums;

static void add_port(sums *s, uint32_t port)
{
    const port_account *account = &accounts[port];
    uint32_t word = shared.pages[port / EVTCHN_FIFO_PAGE_WORDS][port % EVTCHN_FIFO_PAGE_WORDS];
    uint32_t held_back = EVTCHN_FIFO_WORD_PENDING | EVTCHN_FIFO_WORD_MASKED;
    uint64_t due = account->events - account->closed - ((word & held_back) == held_back);
    s->raises += account->events + account->coalesced;
    s->hand_overs += account->handed_over;
    s->coalesced += account->coalesced;
    s->closed += account->closed;
    s->left += (word & ~EVTCHN_FIFO_WORD_LINK) != 0;
    if (due > account->handed_over)
        s->lost += due - account->handed_over;
    else
        s->doubled += account->handed_over - due;
}

static uint64_t services_inside(void) { return guest_counted.services - guest_counted.inside[EVTCHN_FIFO_IDLE]; }

static uint64_t unexpected(void) { return hypervisor_counted.unexpected.count + guest_counted.unexpected.count; }

/* ---- the rows ---- */

static void print_item(const char *text, uint64_t number)
{
    print_text(text);
    print_number(number);
}

/* A row's name, in its column. */
static void print_name(const char *name)
{
    uint32_t width;
    for (width = 0; name[width] != 0; width++) {
    }
    print_text(name);
    for (; width < 24; width++)
        print_text(" ");
}

static void print_row(const char *name, uint64_t number)
{
    print_name(name);
    print_number(number);
    print_text("\n");
}

static void print_memory(void)
{
    print_name("memory in bytes");
    print_item("domain ", EVTCHN_FIFO_DOMAIN_SIZE);
    print_item(", guest ", EVTCHN_FIFO_GUEST_SIZE);
    print_item(", ledger ", WORDS * EVTCHN_FIFO_ENTRY_SIZE);
    print_item(", control block ", sizeof *shared.control);
    print_item(", event array ", WORDS * sizeof(uint32_t));
    print_item("; stack used ", stack_used());
    print_text("\n");
}

static void print_calls(const sums *s)
{
    print_row("raises", s->raises);
    print_item("  handed over ", s->hand_overs);
    print_item(", coalesced ", s->coalesced);
    print_item(", closed ", s->closed);
    print_text("\n");
    print_name("other calls");
    print_item("closes ", hypervisor_counted.closes);
    print_item(", priorities ", hypervisor_counted.priorities);
    print_item(", unmasks ", hypervisor_counted.unmasks);
    print_text("\n");
    print_name("the guest's own calls");
    print_item("masks ", guest_counted.masks);
    print_item(", unmasks ", guest_counted.unmasks);
    print_item(", timer interrupts ", guest_counted.interrupts);
    print_text("\n");
}

static void print_services(void)
{
    uint32_t made;
    print_row("services", guest_counted.services);
    print_row("services inside a call", services_inside());
    print_item("  of a raise ", guest_counted.inside[EVTCHN_FIFO_RAISE]);
    print_item(", an unmask ", guest_counted.inside[EVTCHN_FIFO_UNMASK]);
    print_item(", a bind ", guest_counted.inside[EVTCHN_FIFO_BIND]);
    print_item(", a close ", guest_counted.inside[EVTCHN_FIFO_CLOSE]);
    print_text("\n  by the accesses that a raise had made, 0 to 9:");
    for (made = 0; made < MOST_WITH_RULES_KEPT; made++)
        print_item(" ", guest_counted.inside_raise[made]);
    print_text("\n");
}

static void print_last(const char *text, const unexpected_answers *answers)
{
    if (answers->count == 0)
        return;
    print_text(text);
    print_text(evtchn_fifo_name(answers->last));
    print_text("\n");
}

static void print_checks(const sums *s)
{
    print_name("longest in accesses");
    print_item("call ", hypervisor_counted.longest);
    print_item(" of ", MOST_WITH_RULES_KEPT);
    print_item(", service ", guest_counted.longest);
    print_item(" of ", MOST_OF_A_SERVICE);
    print_text("\n");
    print_row("unexpected answers", unexpected());
    print_last("  the hypervisor's last ", &hypervisor_counted.unexpected);
    print_last("  the guest's last ", &guest_counted.unexpected);
    print_row("ports left with a flag", s->left);
    print_row("lost", s->lost);
    print_row("doubled", s->doubled);
}

static bool all_holds(const sums *s)
{
    bool was_tried = s->raises > 0 && s->hand_overs > 0 && services_inside() > 0;
    bool is_short = hypervisor_counted.longest <= MOST_WITH_RULES_KEPT && guest_counted.longest <= MOST_OF_A_SERVICE;
    return was_tried && is_short && unexpected() == 0 && s->left == 0 && s->lost == 0 && s->doubled == 0;
}

bool report(void)
{
    sums s = {0, 0, 0, 0, 0, 0, 0};
    uint32_t port;
    bool holds;
    for (port = 0; port < WORDS; port++)
        add_port(&s, port);
    print_memory();
    print_calls(&s);
    print_services();
    print_checks(&s);
    holds = all_holds(&s);
    print_text(holds ? "All holds.\n" : "FAILS\n");
    return holds;
}
