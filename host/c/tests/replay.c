/*
 * evtchn_replay.h: a log of every call agrees, however it is cut; each of its lines dropped, doubled or changed; logs with their reports
 * worked out by hand; sizes of what is lent, and what lies around it; positions that no replay makes; and a host that checks as it runs.
 * What is lent ends where memory does.
 */
#define _DEFAULT_SOURCE
#include <stdlib.h>
#include <sys/mman.h>
#include <unistd.h>

#include "check.h"
#include "evtchn_fifo_trace.h"
#include "evtchn_replay.h"
#include "../world.h"
#include "replay_logs.h"

/* ---- what is lent ---- */

#define TEXT_BYTES 8192u

/* an area of memory, and the part of it that is lent; behind the area nothing can be read or written */
typedef struct area {
    uint8_t *start, *lent;
    size_t room, size;
} area;

enum { DOMAIN, GUEST, BLOCK, LINE, DUE, LEDGER, ARRAY, AREAS };

static area areas[AREAS];
static uint8_t *text_end;
static unsigned junk_seed;
static evtchn_replay_position position;

/* So many bytes at the least, and where they end. */
static uint8_t *guarded(size_t size, size_t *room)
{
    size_t page = (size_t)sysconf(_SC_PAGESIZE);
    uint8_t *start;
    *room = (size / page + 2) * page;
    start = mmap(NULL, *room + page, PROT_READ | PROT_WRITE, MAP_PRIVATE | MAP_ANONYMOUS, -1, 0);
    if (start == MAP_FAILED || mprotect(start + *room, page, PROT_NONE) != 0) {
        printf("there is no room for %zu bytes\n", *room + page);
        exit(1);
    }
    return start;
}

static void make_areas(void)
{
    static const size_t sizes[AREAS] = {100, 104, 72, 64, 64, LEDGER_BYTES, WORDS * 4};
    size_t room;
    int k;
    for (k = 0; k < AREAS; k++) {
        areas[k].start = guarded(sizes[k], &areas[k].room);
        areas[k].size = sizes[k];
    }
    text_end = guarded(TEXT_BYTES, &room);
    text_end += room;
}

static uint8_t junk(size_t k)
{
    if (junk_seed < 2)
        return junk_seed == 0 ? 0 : 0xFF;
    return (uint8_t)(k * 31 + k / 256 + junk_seed * 17);
}

/* Areas full of junk, with so many bytes of ledger and words lent, so many bytes before the areas' ends. */
static void lend(size_t ledger, size_t words, size_t before, unsigned seed)
{
    size_t at;
    int k;
    junk_seed = seed;
    areas[LEDGER].size = ledger;
    areas[ARRAY].size = words * 4;
    for (k = 0; k < AREAS; k++) {
        for (at = 0; at < areas[k].room; at++)
            areas[k].start[at] = junk(at);
        areas[k].lent = areas[k].size == 0 ? NULL : areas[k].start + areas[k].room - before - areas[k].size;
    }
}

static void lend_all(void) { lend(LEDGER_BYTES, WORDS, 0, 2); }

/* What is not lent is junk still, and so is a ledger's last odd byte. */
static int is_around_kept(void)
{
    size_t at, from, to;
    int k;
    for (k = 0; k < AREAS; k++) {
        from = areas[k].lent == NULL ? 0 : (size_t)(areas[k].lent - areas[k].start);
        to = from + areas[k].size - (k == LEDGER ? areas[k].size % 2 : 0);
        for (at = 0; at < areas[k].room; at++)
            if ((at < from || at >= to) && areas[k].start[at] != junk(at))
                return 0;
    }
    return 1;
}

static uint32_t *words_of(int which) { return (uint32_t *)(void *)areas[which].lent; }

static void begin(void)
{
    position = evtchn_replay_bytes_start(areas[DOMAIN].lent, areas[LEDGER].lent, areas[LEDGER].size, areas[GUEST].lent, words_of(ARRAY),
                                   areas[ARRAY].size / 4, words_of(BLOCK), areas[DUE].lent);
}

/* A piece, which ends where memory does; NULL is an empty one. */
static void feed(const char *text, size_t length)
{
    uint8_t *piece = text == NULL ? NULL : text_end - length;
    if (length > 0)
        memcpy(piece, text, length);
    position = evtchn_replay_bytes_feed(position, areas[DOMAIN].lent, areas[LEDGER].lent, areas[LEDGER].size, areas[GUEST].lent, words_of(ARRAY),
                                  areas[ARRAY].size / 4, words_of(BLOCK), areas[LINE].lent, areas[DUE].lent, piece, length);
}

static void play(const char *log, size_t length, size_t piece)
{
    size_t at, next;
    begin();
    for (at = 0; at < length; at = next) {
        next = length - at > piece ? at + piece : length;
        feed(log + at, next - at);
    }
}

static void play_whole(const char *log) { play(log, strlen(log), TEXT_BYTES); }

/* ---- what it came to ---- */

static int reports(uint32_t kind, uint64_t line)
{
    evtchn_replay_result result = evtchn_replay_bytes_report(position);
    int holds = result.kind == kind && result.line == line;
    if (!holds)
        printf("kind %u, line %llu\n", (unsigned)result.kind, (unsigned long long)result.line);
    return holds;
}

/* a position, and copies of all that is lent */
typedef struct outcome {
    evtchn_replay_position position;
    uint8_t bytes[AREAS][WORDS * 4];
} outcome;

static outcome usual, stopped;

static void keep(outcome *to)
{
    int k;
    to->position = position;
    for (k = 0; k < AREAS; k++)
        if (areas[k].size > 0)
            memcpy(to->bytes[k], areas[k].lent, areas[k].size);
}

static int is_position(evtchn_replay_position other)
{
    return position.lines == other.lines && position.line == other.line && position.due == other.due && position.mask == other.mask &&
           position.stop == other.stop;
}

/* The same position, its line and what is due, records, ledger, words and control block. */
static int is_outcome(const outcome *other)
{
    int k, holds = is_position(other->position);
    size_t size;
    for (k = 0; k < AREAS && holds; k++) {
        size = k == LINE ? position.line : k == DUE ? position.due : areas[k].size;
        holds = size == 0 || memcmp(areas[k].lent, other->bytes[k], size) == 0;
    }
    return holds;
}

static int is_all_kept(const outcome *other)
{
    int k, holds = is_position(other->position);
    for (k = 0; k < AREAS && holds; k++)
        holds = areas[k].size == 0 || memcmp(areas[k].lent, other->bytes[k], areas[k].size) == 0;
    return holds;
}

static int is_text(const uint8_t *bytes, size_t length, const char *text)
{
    int holds = length == strlen(text) && memcmp(bytes, text, length) == 0;
    if (!holds)
        printf("%.*s is not\n%s\n", (int)length, (const char *)bytes, text);
    return holds;
}

/* ---- a log of every call ---- */

static char good[TEXT_BYTES], damaged[TEXT_BYTES];
static size_t good_length;

static size_t append(char *log, size_t at, size_t line)
{
    size_t length = strlen(good_lines[line].text);
    memcpy(log + at, good_lines[line].text, length + 1);
    return at + length;
}

static void make_good(void)
{
    size_t k;
    for (k = 0; k < GOOD_LINES; k++)
        good_length = append(good, good_length, k);
}

/* ---- the start ---- */

static int is_zero(int which)
{
    size_t at = 0;
    while (at < areas[which].size && areas[which].lent[at] == 0)
        at++;
    return at == areas[which].size;
}

/* The entries of a ledger have priority 7, and nothing else. */
static int is_fresh_ledger(void)
{
    size_t k = 0, entries = areas[LEDGER].size / 2;
    while (k < entries && areas[LEDGER].lent[2 * k] == 7 && areas[LEDGER].lent[2 * k + 1] == 0)
        k++;
    return k == entries;
}

/* All that is lent is fresh, whatever it held and however long it is, and the header is due. */
static void starts(void)
{
    static const size_t lengths[] = {0, 1, 2, 3, 12, 13, 1023, 1024, 1025, 2047, 2048};
    unsigned k, seed;
    for (k = 0; k < sizeof lengths / sizeof lengths[0]; k++)
        for (seed = 0; seed < 4; seed++) {
            lend(lengths[k], lengths[k], seed % 2 * 64, seed);
            begin();
            CHECK(is_zero(DOMAIN) && is_zero(GUEST) && is_zero(BLOCK) && is_zero(ARRAY) && is_fresh_ledger() && is_around_kept());
            CHECK(position.lines == 0 && position.line == 0 && position.mask == 0 && position.stop == 0);
            CHECK(is_text(areas[DUE].lent, position.due, "accesses\t1\n") && reports(EVTCHN_REPLAY_DIFFERS, 1));
        }
}

/* ---- cut into pieces ---- */

static int is_same_in_pieces(const char *log)
{
    static const size_t pieces[] = {1, 2, 3, 7, 63, 64, 65, TEXT_BYTES};
    size_t k;
    for (k = 0; k < sizeof pieces / sizeof pieces[0]; k++) {
        play(log, strlen(log), pieces[k]);
        if (!is_outcome(&usual))
            return 0;
    }
    return 1;
}

/* In two pieces, cut at each place; both ends are among them, and an empty piece changes nothing. */
static int is_same_in_two(const char *log)
{
    size_t at, length = strlen(log);
    for (at = 0; at <= length; at++) {
        begin();
        feed(log, at);
        feed(NULL, 0);
        feed(log + at, length - at);
        if (!is_outcome(&usual))
            return 0;
    }
    return 1;
}

static void good_log(void)
{
    unsigned seed;
    CHECK(GOOD_LINES == GOOD_COUNT);
    lend_all();
    play_whole(good);
    CHECK(reports(EVTCHN_REPLAY_AGREES, GOOD_COUNT) && is_around_kept());
    CHECK(position.lines == GOOD_COUNT && position.line == 0 && position.due == 0 && position.mask == 0 && position.stop == 0);
    keep(&usual);
    CHECK(is_same_in_pieces(good));
    CHECK(is_same_in_two(good));
    for (seed = 0; seed < 8; seed++) {
        lend(LEDGER_BYTES, WORDS, 4 * seed, seed);
        play_whole(good);
        CHECK(is_outcome(&usual) && is_around_kept());
    }
}

/* The report may be asked for behind each byte: inside a line it is 22; an answer is due before its line, and so is a mask's access. */
static void good_log_so_far(void)
{
    size_t k, at, length;
    int holds = 1;
    lend_all();
    begin();
    CHECK(reports(EVTCHN_REPLAY_DIFFERS, 1) && is_text(areas[DUE].lent, position.due, "accesses\t1\n"));
    for (k = 0; k < GOOD_LINES; k++) {
        const char *text = good_lines[k].text;
        int is_due = k + 1 < GOOD_LINES && (strstr(good_lines[k + 1].text, "\tanswer\t") != NULL || strstr(text, "\tmask\t") != NULL);
        length = strlen(text);
        for (at = 0; at < length; at++) {
            feed(text + at, 1);
            if (at + 1 < length)
                holds = holds && reports(EVTCHN_REPLAY_NOT_OF_THE_FORM, k + 1) && position.line == at + 1;
        }
        holds = holds && reports(is_due ? EVTCHN_REPLAY_DIFFERS : EVTCHN_REPLAY_AGREES, is_due ? k + 2 : k + 1);
        holds = holds && position.mask == (strncmp(text, "G\tcall\tmask\t", 12) == 0 && strstr(good_lines[k + 1].text, "\tor\t") != NULL);
        if (is_due)
            holds = holds && is_text(areas[DUE].lent, position.due, good_lines[k + 1].text);
    }
    CHECK(holds);
}

/* ---- each of its lines dropped, doubled, changed ---- */

/* the log with a line so many times */
static void make_with(size_t line, unsigned times)
{
    size_t k, at = 0;
    unsigned n;
    damaged[0] = 0;
    for (k = 0; k < GOOD_LINES; k++)
        for (n = 0; n < (k == line ? times : 1); n++)
            at = append(damaged, at, k);
}

static void dropped_and_doubled(void)
{
    size_t k;
    lend_all();
    for (k = 0; k < GOOD_LINES; k++) {
        make_with(k, 0);
        play_whole(damaged);
        check_at(__FILE__, __LINE__, good_lines[k].text, reports(EVTCHN_REPLAY_DIFFERS, k + 1 + good_lines[k].dropped));
        make_with(k, 2);
        play_whole(damaged);
        check_at(__FILE__, __LINE__, good_lines[k].text, reports(EVTCHN_REPLAY_DIFFERS, k + 1 + good_lines[k].doubled));
    }
}

static int is_letter(char byte) { return (byte >= 'a' && byte <= 'z') || (byte >= 'A' && byte <= 'Z'); }

/* The report of the good log with one byte changed. */
static int reports_with(size_t at, char byte, uint32_t kind, size_t line)
{
    char was = good[at];
    int holds;
    good[at] = byte;
    play(good, good_length, 65);
    holds = reports(kind, line);
    good[at] = was;
    return holds;
}

/* A byte that no line has at that place: not of the form. */
static int is_refused_with_any(size_t at, size_t line)
{
    static const char others[] = {'?', ' ', '\r', 0, 127, (char)0xFF, '\n', '\t', ':', '/', '@'};
    size_t k;
    int holds = 1;
    for (k = 0; k < sizeof others; k++)
        if (good[at] != others[k])
            holds = holds && reports_with(at, others[k], EVTCHN_REPLAY_NOT_OF_THE_FORM, line);
    if (is_letter(good[at]))
        holds = holds && reports_with(at, (char)(good[at] ^ 0x20), EVTCHN_REPLAY_NOT_OF_THE_FORM, line);
    return holds;
}

/* Another digit of an access: its place, operand, old word or word seen. */
static int differs_with_another_digit(size_t at, size_t line)
{
    char byte = good[at];
    if (byte >= '0' && byte <= '9')
        return reports_with(at, byte == '9' ? '8' : (char)(byte + 1), EVTCHN_REPLAY_DIFFERS, line);
    if (byte >= 'A' && byte <= 'F')
        return reports_with(at, byte == 'F' ? 'E' : (char)(byte + 1), EVTCHN_REPLAY_DIFFERS, line);
    return 1;
}

static void changed(void)
{
    size_t k, at = 0, end;
    lend_all();
    for (k = 0; k < GOOD_LINES; k++) {
        const char *text = good_lines[k].text;
        int is_access = k > 0 && strstr(text, "\tcall\t") == NULL && strstr(text, "\tanswer\t") == NULL, holds = 1;
        for (end = at + strlen(text); at < end; at++) {
            holds = holds && is_refused_with_any(at, k + 1);
            if (is_access)
                holds = holds && differs_with_another_digit(at, k + 1);
        }
        check_at(__FILE__, __LINE__, text, holds);
    }
}

/* ---- logs worked out by hand ---- */

/* A replay that has stopped takes no more. */
static int stays_stopped(void)
{
    static const char *const more[] = {"\n", "X", HEADER, DONE, BEGIN_INIT DONE BEGIN_PAGE DONE, SIXTY SIXTY "\n"};
    size_t k;
    if (position.stop == 0)
        return 1;
    keep(&stopped);
    for (k = 0; k < sizeof more / sizeof more[0]; k++)
        feed(more[k], strlen(more[k]));
    return is_all_kept(&stopped);
}

static int holds_row(const row *one)
{
    uint64_t agreed = one->kind == EVTCHN_REPLAY_AGREES ? one->line : one->line - 1;
    lend_all();
    play_whole(one->log);
    keep(&usual);
    return reports(one->kind, one->line) && position.lines == agreed && is_text(areas[LINE].lent, position.line, one->has) &&
           (one->due == NULL || is_text(areas[DUE].lent, position.due, one->due)) && stays_stopped() && is_same_in_pieces(one->log) &&
           is_same_in_two(one->log) && is_around_kept();
}

static void rows(void)
{
    size_t k;
    const row *one;
    for (k = 0; k < TABLES; k++)
        for (one = tables[k]; one->what != NULL; one++)
            check_at(__FILE__, __LINE__, one->what, holds_row(one));
}

/* ---- sizes lent ---- */

/* At the end of memory and before it, whatever was there, whole and in pieces. */
static int holds_size(const size_row *one)
{
    unsigned seed;
    for (seed = 0; seed < 6; seed++) {
        lend(one->ledger, one->words, seed % 2 * 64, seed);
        play_whole(one->log);
        if (!reports(one->kind, one->line) || !stays_stopped() || !is_around_kept())
            return 0;
        keep(&usual);
        if (!is_same_in_pieces(one->log) || !is_around_kept())
            return 0;
    }
    return 1;
}

static void sizes(void)
{
    const size_row *one;
    for (one = size_rows; one->what != NULL; one++)
        check_at(__FILE__, __LINE__, one->what, holds_size(one));
    CHECK(sizeof(evtchn_replay_position) == 32 && sizeof(evtchn_replay_result) == 16);
    CHECK(EVTCHN_FIFO_DOMAIN_SIZE == 100 && EVTCHN_FIFO_GUEST_SIZE == 104 && EVTCHN_FIFO_CONTROL_WORDS == 18 && EVTCHN_REPLAY_LINE == 64);
}

/* ---- positions that no replay makes ---- */

static uint64_t state = 88172645463325252u;

static uint64_t random_number(void)
{
    state ^= state << 13;
    state ^= state >> 7;
    state ^= state << 17;
    return state;
}

static uint64_t one_of(const uint64_t *numbers, size_t count) { return numbers[random_number() % count]; }

static void set_junk_position(void)
{
    static const uint64_t lines[] = {0, 7, UINT64_MAX - 1, UINT64_MAX};
    static const uint64_t lengths[] = {0, 0, 1, 11, 53, 63, 64, 65, 0x100000000u, SIZE_MAX};
    static const uint64_t masks[] = {0, 1, 2, UINT32_MAX};
    static const uint64_t stops[] = {0, 0, 0, 0, 1, 5, 22, 33, UINT32_MAX};
    position.lines = one_of(lines, 4);
    position.line = (size_t)one_of(lengths, 10);
    position.due = (size_t)one_of(lengths, 10);
    position.mask = (uint32_t)one_of(masks, 4);
    position.stop = (uint32_t)one_of(stops, 9);
}

/* A piece of the good log, somewhere, from such a position over junk. */
static int survives(unsigned seed)
{
    size_t from = random_number() % good_length, length = random_number() % (good_length - from + 1);
    evtchn_replay_result result;
    lend(random_number() % (LEDGER_BYTES + 1), random_number() % (WORDS + 1), 0, seed);
    set_junk_position();
    keep(&stopped);
    feed(good + from, length);
    result = evtchn_replay_bytes_report(position);
    if (stopped.position.stop != 0)
        return is_all_kept(&stopped) && result.kind == stopped.position.stop && is_around_kept();
    return position.lines >= stopped.position.lines && result.line >= position.lines && is_around_kept();
}

static void junk_positions(void)
{
    unsigned seed = 0;
    while (seed < 3000 && survives(seed))
        seed++;
    CHECK(seed == 3000);
}

/* A number of lines stays at 2^64 - 1. */
static void last_numbers(void)
{
    lend_all();
    begin();
    position.lines = UINT64_MAX - 1;
    CHECK(reports(EVTCHN_REPLAY_DIFFERS, UINT64_MAX));
    feed(HEADER, strlen(HEADER));
    CHECK(position.lines == UINT64_MAX && reports(EVTCHN_REPLAY_AGREES, UINT64_MAX));
    feed(BEGIN_INIT, strlen(BEGIN_INIT));
    CHECK(position.lines == UINT64_MAX && reports(EVTCHN_REPLAY_DIFFERS, UINT64_MAX));
    feed(READ_5, strlen(READ_5));
    CHECK(position.lines == UINT64_MAX && position.stop == 1 && reports(EVTCHN_REPLAY_DIFFERS, UINT64_MAX));
    position.stop = 5;
    CHECK(reports(5, UINT64_MAX));
}

/* ---- with types ---- */

static evtchn_replay replay;
static uint16_t ledger[ENTRIES];
static uint32_t array[128 * EVTCHN_FIFO_PAGE_WORDS];

static int ends(uint32_t kind, uint64_t line)
{
    evtchn_replay_result result = evtchn_replay_end(&replay);
    return result.kind == kind && result.line == line;
}

/* a text without its newline */
static int is_shown(evtchn_replay_text text, const char *line)
{
    size_t length = strlen(line);
    if (length > 0 && line[length - 1] == '\n')
        length--;
    return text.length == length && memcmp(text.bytes, line, length) == 0;
}

static int holds_typed(const row *one)
{
    int is_playing;
    evtchn_replay_begin(&replay, ledger, ENTRIES, array, WORDS);
    is_playing = evtchn_replay_play(&replay, one->log, strlen(one->log));
    return is_playing == (replay.position.stop == 0) && ends(one->kind, one->line) && is_shown(evtchn_replay_log_has(&replay), one->has) &&
           is_shown(evtchn_replay_was_due(&replay), one->due == NULL ? "" : one->due);
}

static void typed_rows(void)
{
    size_t k;
    const row *one;
    for (k = 0; k < TABLES; k++)
        for (one = tables[k]; one->what != NULL; one++)
            check_at(__FILE__, __LINE__, one->what, holds_typed(one));
}

/* As many expands, each answered 0; whether all of these lines agree. */
static int expands(unsigned pages)
{
    unsigned k;
    for (k = 0; k < pages; k++)
        if (!evtchn_replay_play(&replay, BEGIN_PAGE DONE, strlen(BEGIN_PAGE DONE)))
            return 0;
    return 1;
}

/* The 129th page is refused with 13, whatever is lent; the 128th with 33, if 127 are. */
static void all_pages(void)
{
    static const char refused[] = BEGIN_PAGE "X\tanswer\t13\t-\t-\t-\n";
    evtchn_replay_begin(&replay, ledger, ENTRIES, array, 128 * EVTCHN_FIFO_PAGE_WORDS);
    evtchn_replay_play(&replay, GIVEN, strlen(GIVEN));
    CHECK(expands(128) && evtchn_replay_play(&replay, refused, strlen(refused)) && ends(EVTCHN_REPLAY_AGREES, 3 + 2 * 129));
    evtchn_replay_begin(&replay, ledger, ENTRIES, array, 128 * EVTCHN_FIFO_PAGE_WORDS - 1);
    evtchn_replay_play(&replay, GIVEN, strlen(GIVEN));
    CHECK(expands(127) && !expands(1) && ends(EVTCHN_REPLAY_NOT_LENT, 3 + 2 * 127 + 1));
    CHECK(is_shown(evtchn_replay_log_has(&replay), BEGIN_PAGE) && evtchn_replay_was_due(&replay).length == 0);
}

/* A long log, in pieces that end anywhere; memory stays what it was. */
static void long_log(void)
{
    static const char service[] = BEGIN_SERVICE G0_IDLE IDLE;
    static char turns[37 * (sizeof service - 1)];
    size_t k, at = 0, next;
    for (k = 0; k < 37; k++)
        memcpy(turns + k * (sizeof service - 1), service, sizeof service - 1);
    evtchn_replay_begin(&replay, NULL, 0, NULL, 0);
    CHECK(evtchn_replay_play(&replay, HEADER, strlen(HEADER)));
    for (k = 0; k < 1000; k++)
        for (at = 0; at < sizeof turns; at = next) {
            next = at + 1 + (k * 7 + at) % 997 < sizeof turns ? at + 1 + (k * 7 + at) % 997 : sizeof turns;
            evtchn_replay_play(&replay, turns + at, next - at);
        }
    CHECK(ends(EVTCHN_REPLAY_AGREES, 1 + 3 * 37 * 1000));
}

/* ---- a host that checks as it runs ---- */

static world w;

static void check_line(void *context, const char *line, size_t length) { evtchn_replay_play((evtchn_replay *)context, line, length); }

static evtchn_fifo_trace trace = {.write = check_line, .context = &replay};

static void host_begins(void)
{
    world_fresh(&w);
    evtchn_replay_begin(&replay, ledger, ENTRIES, array, EVTCHN_FIFO_PAGE_WORDS);
    evtchn_fifo_trace_header(&trace);
    CHECK(evtchn_fifo_trace_init_control(&trace, &w.domain, 0, 1, 1024, 0).code == 0);
    CHECK(evtchn_fifo_trace_expand_array(&trace, &w.domain, 2, 1024).code == 0);
    evtchn_fifo_guest_tell(&w.guest, EVTCHN_FIFO_PAGE_WORDS);
}

/* Each call of the host's came to an answer, be it a refusal. */
static int answered = 1;
static void note(evtchn_fifo_next next) { answered = answered && !evtchn_fifo_is_access(next); }

static void host_runs(evtchn_fifo_next next)
{
    note(evtchn_fifo_trace_domain_run(&trace, &w.domain, w.ledger, ENTRIES, &w.shared, next));
}

static void host_clears_mask(uint32_t port)
{
    note(evtchn_fifo_trace_guest_run(&trace, &w.guest, &w.shared, evtchn_fifo_trace_clear_mask(&trace, &w.guest, port)));
}

static void host_serves(void)
{
    note(evtchn_fifo_trace_guest_run(&trace, &w.guest, &w.shared, evtchn_fifo_trace_service(&trace, &w.guest)));
}

/* One turn for a port: bind, priority, raise, service, mask, clear_mask, mask, raise, clear_mask, unmask, service, close. */
static void host_turns(uint32_t port)
{
    host_runs(evtchn_fifo_trace_bind(&trace, &w.domain, w.ledger, ENTRIES, port));
    host_runs(evtchn_fifo_trace_set_priority(&trace, &w.domain, w.ledger, ENTRIES, port, port % 17));
    host_runs(evtchn_fifo_trace_raise(&trace, &w.domain, w.ledger, ENTRIES, port));
    host_serves();
    note(evtchn_fifo_trace_mask(&trace, &w.shared, port, EVTCHN_FIFO_PAGE_WORDS));
    host_clears_mask(port);
    note(evtchn_fifo_trace_mask(&trace, &w.shared, port, EVTCHN_FIFO_PAGE_WORDS));
    host_runs(evtchn_fifo_trace_raise(&trace, &w.domain, w.ledger, ENTRIES, port));
    host_clears_mask(port);
    host_runs(evtchn_fifo_trace_unmask(&trace, &w.domain, w.ledger, ENTRIES, port));
    host_serves();
    host_runs(evtchn_fifo_trace_close(&trace, &w.domain, w.ledger, ENTRIES, port));
}

/* All agrees after each turn; then the guest writes a word by itself, and the next access that sees it differs. */
static void checks_as_it_runs(void)
{
    uint32_t port;
    uint64_t agreed;
    int holds = 1;
    host_begins();
    for (port = 0; port < 1600; port++) {
        host_turns(port);
        holds = holds && evtchn_replay_end(&replay).kind == EVTCHN_REPLAY_AGREES;
    }
    CHECK(holds && answered);
    agreed = replay.position.lines;
    host_runs(evtchn_fifo_trace_bind(&trace, &w.domain, w.ledger, ENTRIES, 5));
    CHECK(ends(EVTCHN_REPLAY_AGREES, agreed + 3));
    w.page[5] = 7;
    host_runs(evtchn_fifo_trace_raise(&trace, &w.domain, w.ledger, ENTRIES, 5));
    CHECK(ends(EVTCHN_REPLAY_DIFFERS, agreed + 5));
    CHECK(is_shown(evtchn_replay_log_has(&replay), "X\tor\tw5\t-\t80000000\t00000007"));
    CHECK(is_shown(evtchn_replay_was_due(&replay), "X\tor\tw5\t-\t80000000\t00000000"));
}

int main(void)
{
    make_areas();
    make_good();
    starts();
    good_log();
    good_log_so_far();
    dropped_and_doubled();
    changed();
    rows();
    sizes();
    junk_positions();
    last_numbers();
    typed_rows();
    all_pages();
    long_log();
    checks_as_it_runs();
    return check_end();
}
