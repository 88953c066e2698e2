/* The log of a domain goes through here line by line, in the order of its accesses: the trace lock is held around each access with its line.
 * The longest raise is kept, and of equally long ones that with the fewest lines. */
#include <stdio.h>
#include <stdlib.h>
#include <string.h>

#include "watch.h"

/* A raise of fewer accesses is not shown. */
#define CONTESTED_LENGTH 7u

#define FIELDS 6u
#define COLUMN 52

/* ---- what is kept ---- */

static bool begins(const char *line, const char *text) { return strncmp(line, text, strlen(text)) == 0; }

static bool is_better(const watched_raise *one, const watched_raise *other)
{
    return one->accesses > other->accesses || (one->accesses == other->accesses && one->count < other->count);
}

/* A raise that has too many lines is given up. */
static void add(watch *w, const char *line, size_t length)
{
    watched_raise *latest = &w->latest;
    if (latest->count == WATCHED_LINES) {
        w->under_way = false;
        return;
    }
    memcpy(latest->lines[latest->count], line, length - 1);
    latest->lines[latest->count++][length - 1] = 0;
    latest->accesses += line[0] == EVTCHN_FIFO_TRACE_HYPERVISOR && !begins(line, "X\tcall") && !begins(line, "X\tanswer");
}

static void take_line(void *context, const char *line, size_t length)
{
    watch *w = context;
    if (begins(line, "X\tcall\traise")) {
        w->under_way = true;
        w->latest.count = w->latest.accesses = 0;
    }
    if (!w->under_way)
        return;
    add(w, line, length);
    if (!begins(line, "X\tanswer"))
        return;
    if (w->under_way && is_better(&w->latest, &w->longest))
        w->longest = w->latest;
    w->under_way = false;
}

static void lock(void *context)
{
    watch *w = context;
    pthread_mutex_lock(&w->lock);
}

static void unlock(void *context)
{
    watch *w = context;
    pthread_mutex_unlock(&w->lock);
}

void watch_begin(watch *w, uint32_t domain)
{
    *w = (watch){.trace = {.write = take_line, .lock = lock, .unlock = unlock, .context = w}, .domain = domain};
    pthread_mutex_init(&w->lock, NULL);
}

/* ---- what is shown ---- */

/* The fields of a line; the line is parted at its tabs. */
static void part(char *line, const char *fields[FIELDS])
{
    uint32_t k;
    for (k = 0; k < FIELDS; k++) {
        fields[k] = line;
        line += strcspn(line, "\t");
        if (*line != 0)
            *line++ = 0;
    }
}

/* What a side did, in words and words of memory: a call, an answer or an access. */
static void describe(const char *const fields[FIELDS], char *text, size_t size)
{
    bool has_port = strcmp(fields[3], "-") != 0;
    if (strcmp(fields[1], "call") == 0)
        snprintf(text, size, "%s%s%s", fields[2], has_port ? " of port " : "", has_port ? fields[3] : "");
    else if (strcmp(fields[1], "answer") == 0)
        snprintf(text, size, "answer %s %s%s%s", fields[2], evtchn_fifo_name((uint32_t)strtoul(fields[2], NULL, 10)),
                 has_port ? ", port " : "", has_port ? fields[3] : "");
    else
        snprintf(text, size, "  %-6s%-7s%-9s%-9s%s%s", fields[1], fields[2], fields[3], fields[4], fields[5],
                 strcmp(fields[1], "cas") == 0 && strcmp(fields[3], fields[5]) != 0 ? " not taken" : "");
}

static void print_line(const char *line)
{
    const char *fields[FIELDS];
    char copy[EVTCHN_FIFO_TRACE_LINE], text[2 * EVTCHN_FIFO_TRACE_LINE];
    strcpy(copy, line);
    part(copy, fields);
    describe(fields, text, sizeof text);
    printf("%*s%s\n", line[0] == EVTCHN_FIFO_TRACE_GUEST ? COLUMN : 0, "", text);
}

static void print_raise(const watch *w)
{
    static const char heads[] = "  kind  place  old      operand  seen";
    uint32_t k;
    printf("\nThe longest raise among contested domains, as recorded in this run (domain %u): %u accesses.\n"
           "A word's first digit adds up PENDING 8, MASKED 4, LINKED 2, BUSY 1; its last five are the port linked next.\n\n",
           w->domain, w->longest.accesses);
    printf("%-*s%s\n%-*s%s\n", COLUMN, "hypervisor", "guest", COLUMN, heads, heads);
    for (k = 0; k < w->longest.count; k++)
        print_line(w->longest.lines[k]);
}

void watch_show(const watch *watches, uint32_t count)
{
    const watch *best = watches;
    uint32_t k;
    for (k = 1; k < count; k++)
        if (is_better(&watches[k].longest, &best->longest))
            best = &watches[k];
    if (count == 0)
        return;
    if (best->longest.accesses >= CONTESTED_LENGTH)
        print_raise(best);
    else
        printf("\nNo raise of a contested domain made %u accesses in this run.\n", CONTESTED_LENGTH);
}
