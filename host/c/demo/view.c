/* On a terminal that is large enough a cell for each domain, drawn five times a second in place; on a smaller one a line that is written
 * over; else a line each second. */
#include <stdio.h>
#include <sys/ioctl.h>

#include "clock.h"
#include "numbers.h"
#include "sums.h"
#include "view.h"

/* The width of a cell: number, sign, ports that are linked, hand-overs a second. A row has each conduct as often as the others. */
#define CELL 19u

/* Lines above the cells and below them. */
#define LINES_AROUND 5u

#define UP "\033[%uA"
#define END_LINE "\033[K\n"

typedef struct grid {
    uint32_t columns, rows; /* of cells; no rows: there is no grid */
    bool drawn;
    double at;                         /* the moment of the last drawing, */
    uint64_t hand_overs[MOST_DOMAINS]; /* and the hand-overs until then */
} grid;

static unsigned long long total(const host *h, bool of_raises)
{
    unsigned long long sum = 0;
    uint32_t k;
    for (k = 0; k < h->count; k++)
        sum += atomic_load_explicit(of_raises ? &h->domains[k].raises : &h->domains[k].hand_overs, memory_order_relaxed);
    return sum;
}

static void print_totals(const host *h, double elapsed, unsigned seconds)
{
    printf("%.1f of %u s: %llu raises, %llu hand-overs", elapsed, seconds, total(h, true), total(h, false));
}

/* As many cells as the window has room for; what has no size has none. */
static grid grid_of(const host *h, double begun)
{
    grid g = {.at = begun};
    struct winsize window;
    uint32_t needed;
    if (!isatty(STDOUT_FILENO) || ioctl(STDOUT_FILENO, TIOCGWINSZ, &window) != 0 || window.ws_row <= LINES_AROUND)
        return g;
    g.columns = window.ws_col / (CELL * CONDUCTS) * CONDUCTS;
    if (g.columns == 0)
        return g;
    needed = (h->count + g.columns - 1) / g.columns;
    g.rows = needed < window.ws_row - LINES_AROUND ? needed : window.ws_row - LINES_AROUND;
    return g;
}

static uint32_t linked(const domain *d)
{
    uint32_t k, count = 0;
    for (k = 0; k < PORTS; k++)
        count += (word_of(d, ports[k]) & EVTCHN_FIFO_WORD_LINKED) != 0;
    return count;
}

static void print_cell(const domain *d, uint64_t a_second)
{
    bool hostile = d->conduct == HOSTILE;
    printf("%s%4u%c%3u", hostile ? YELLOW : "", d->number, hostile ? '!' : ' ', linked(d));
    print_number(a_second, 9);
    printf("/s%s", hostile ? PLAIN_COLOUR : "");
}

static void print_row(grid *g, const host *h, uint32_t row, double elapsed)
{
    uint32_t k;
    for (k = row * g->columns; k < (row + 1) * g->columns && k < h->count; k++) {
        uint64_t hand_overs = atomic_load_explicit(&h->domains[k].hand_overs, memory_order_relaxed);
        print_cell(&h->domains[k], (uint64_t)((double)(hand_overs - g->hand_overs[k]) / elapsed));
        g->hand_overs[k] = hand_overs;
    }
    printf(END_LINE);
}

static void print_heads(const grid *g, const host *h)
{
    uint32_t k;
    for (k = 0; k < g->columns && k < h->count; k++)
        printf("%5s%-14s", "", conduct_names[h->domains[k].conduct]);
    printf(END_LINE);
}

/* The same number of lines each time: the next drawing begins as many lines above. */
static void draw(grid *g, const host *h, double begun, unsigned seconds)
{
    double moment = now();
    uint32_t row, shown = g->rows * g->columns;
    if (g->drawn)
        printf(UP, g->rows + LINES_AROUND - 1);
    print_totals(h, moment - begun, seconds);
    printf(END_LINE "A cell: domain, how many of its %u ports are linked, hand-overs a second; ! marks hostile guests" END_LINE, PORTS);
    print_heads(g, h);
    for (row = 0; row < g->rows; row++)
        print_row(g, h, row, moment - g->at);
    if (shown < h->count)
        printf("and %u domains more", h->count - shown);
    printf(END_LINE);
    g->at = moment;
    g->drawn = true;
}

static void show_line(const host *h, double begun, unsigned seconds)
{
    bool terminal = isatty(STDOUT_FILENO);
    printf(terminal ? "\r" : "");
    print_totals(h, now() - begun, seconds);
    printf(terminal ? "" : "\n");
}

void view_run(const host *h, double begun, unsigned seconds)
{
    grid g = grid_of(h, begun);
    double step = isatty(STDOUT_FILENO) ? 0.2 : 1, left;
    while ((left = begun + seconds - now()) > 0) {
        sleep_for(left < step ? left : step);
        if (g.rows > 0)
            draw(&g, h, begun, seconds);
        else
            show_line(h, begun, seconds);
        fflush(stdout);
    }
    printf(g.rows > 0 ? "" : isatty(STDOUT_FILENO) ? "\n\n" : "\n");
}
