/* C1 to C12 of document 01, C12 with BUSY, through the C boundary, over real memory: the log, line by line, is that of cases.txt. */
#include <stdlib.h>

#include "check.h"
#include "../world.h"

static world w;

static void title(const char *name)
{
    world_write(&w, name);
}

/* A world after so many of C1, C2, C4 and C5, whose lines are not written. */
enum after { AFTER_START, AFTER_C1, AFTER_C5 };

static void begin_after(enum after state)
{
    char log[sizeof w.log];
    size_t used = w.used;
    memcpy(log, w.log, sizeof log);
    world_fresh(&w);
    memcpy(w.log, log, sizeof log);
    w.used = used;
    w.quiet = 1;
    world_begin(&w);
    if (state != AFTER_START) {
        world_bind(&w, 5);
        world_raise(&w, 5);
    }
    if (state == AFTER_C5) {
        world_bind(&w, 9);
        world_raise(&w, 9);
        world_service(&w);
        world_service(&w);
    }
    w.quiet = 0;
}

static int answers(evtchn_fifo_next next, uint32_t code, uint32_t count)
{
    return next.code == code && next.value == count && next.old == 0;
}

static void c1_to_c7(void)
{
    evtchn_fifo_next next;
    world_fresh(&w);
    title("accesses\t1");
    world_begin(&w);
    title("C1");
    CHECK(answers(world_bind(&w, 5), 0, 1));
    CHECK(answers(world_raise(&w, 5), 1, 4));
    CHECK(w.ledger[5] == 0x0377 && world_tail(&w, 7) == 5 && w.page[5] == 0xA0000000u && w.control.ready == 0x80);
    title("C2");
    CHECK(answers(world_bind(&w, 9), 0, 1));
    CHECK(answers(world_raise(&w, 9), 0, 4));
    CHECK(world_tail(&w, 7) == 9 && w.page[5] == 0xA0000009u);
    title("C3");
    CHECK(answers(world_raise(&w, 5), 0, 1));
    title("C4");
    next = world_service(&w);
    CHECK(answers(next, 19, 5) && next.index == 5);
    CHECK(world_head(&w, 7) == 9 && world_ready(&w) == 0x80 && w.page[5] == 0);
    title("C5");
    next = world_service(&w);
    CHECK(answers(next, 19, 4) && next.index == 9);
    CHECK(world_head(&w, 7) == 0 && world_ready(&w) == 0 && world_tail(&w, 7) == 9);
    title("C6");
    CHECK(answers(world_service(&w), 20, 1));
    title("C7");
    CHECK(answers(world_raise(&w, 9), 1, 4));
    CHECK(w.control.head[7] == 9 && w.control.ready == 0x80);
}

static void c8(void)
{
    begin_after(AFTER_START);
    w.quiet = 1;
    world_bind(&w, 12);
    w.quiet = 0;
    title("C8");
    world_mask(&w, 12);
    CHECK(answers(world_raise(&w, 12), 0, 1));
    CHECK(w.page[12] == 0xC0000000u);
    CHECK(answers(world_unmask(&w, 12), 1, 4));
}

static void c9(void)
{
    evtchn_fifo_next raise, service;
    begin_after(AFTER_C1);
    w.quiet = 1;
    world_bind(&w, 9);
    w.quiet = 0;
    title("C9");
    service = evtchn_fifo_guest_service(&w.guest);
    service = world_step(&w, 'G', service);
    service = world_step(&w, 'G', service);
    raise = world_raise_start(&w, 9);
    raise = world_step(&w, 'X', raise);
    raise = world_step(&w, 'X', raise);
    raise = world_step(&w, 'X', raise);
    service = world_step(&w, 'G', service);
    CHECK(answers(world_run(&w, 'X', raise), 1, 6));
    CHECK(answers(world_run(&w, 'G', service), 19, 5));
    CHECK(world_tail(&w, 7) == 9 && world_head(&w, 7) == 0 && world_ready(&w) == 0);
}

static void c10(void)
{
    begin_after(AFTER_C5);
    title("C10");
    CHECK(answers(world_run(&w, 'X', evtchn_fifo_domain_set_priority(&w.domain, w.ledger, WORLD_ENTRIES, 9, 0)), 0, 0));
    CHECK(w.ledger[9] == 0x0370);
    CHECK(answers(world_raise(&w, 9), 1, 4));
    CHECK(w.ledger[9] == 0x0300 && world_tail(&w, 7) == 0 && world_tail(&w, 0) == 9);
    CHECK(answers(world_raise(&w, 5), 1, 4));
    CHECK(world_tail(&w, 7) == 5 && w.page[9] % 0x20000u == 0);
}

static void c11(void)
{
    begin_after(AFTER_C1);
    title("C11");
    CHECK(answers(world_close(&w, 5), 0, 1));
    CHECK(w.page[5] == 0x20000000u && w.ledger[5] == 0x0277);
    CHECK(answers(world_bind(&w, 5), 7, 1));
    CHECK(answers(world_service(&w), 21, 4));
    CHECK(answers(world_bind(&w, 5), 0, 1));
    CHECK(w.ledger[5] == 0x0377);
}

static void c12(void)
{
    static const uint32_t seen[] = {0x00000000u, 0x80000000u, 0xA0000000u, 0xE0000000u, 0xA0000000u,
                                    0xF0000000u, 0xB0000000u, 0xF0000000u, 0xB0000000u, 0xB0000000u};
    evtchn_fifo_next next;
    size_t k;
    begin_after(AFTER_C1);
    w.quiet = 1;
    world_bind(&w, 9);
    w.quiet = 0;
    title("C12");
    next = world_raise_start(&w, 9);
    for (k = 0; k < sizeof seen / sizeof seen[0]; k++)
        next = world_hand_back(&w, 'X', next, seen[k]);
    CHECK(answers(next, 2, 10));
    CHECK(world_tail(&w, 7) == 9);
}

/* Each line of the log and of the file. */
static void compare(const char *name)
{
    char expected[256];
    char *line = strtok(w.log, "\n");
    FILE *file = fopen(name, "r");
    CHECK(file != NULL);
    if (file == NULL)
        return;
    while (fgets(expected, sizeof expected, file) != NULL) {
        expected[strcspn(expected, "\n")] = '\0';
        check_at(name, 0, expected, line != NULL && strcmp(line, expected) == 0);
        line = line == NULL ? NULL : strtok(NULL, "\n");
    }
    CHECK(line == NULL);
    fclose(file);
}

int main(int count, char **words)
{
    CHECK(evtchn_fifo_layout() == EVTCHN_FIFO_LAYOUT);
    c1_to_c7();
    c8();
    c9();
    c10();
    c11();
    c12();
    if (count > 1)
        compare(words[1]);
    return check_end();
}
