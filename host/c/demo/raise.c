/* A raise of port 5, whose priority is 7, on an empty queue: PENDING, LINKED, HEAD of queue 7, its bit in READY. */
#include "../world.h"
#include "raise.h"

#define PORT 5u

static const char expected[] = "X\tor\tw5\t-\t80000000\t00000000\n"
                               "X\tor\tw5\t-\t20000000\t80000000\n"
                               "X\tstore\th7\t-\t00000005\t-\n"
                               "X\tor\tready\t-\t00000080\t00000000\n"
                               "X\tanswer\t1\t-\t-\t-\n";

/* The log's fields in columns. */
static void print_log(const char *log)
{
    static const int widths[] = {6, 8, 7, 10, 10, 10};
    int field = 0;
    while (*log != 0) {
        int length = (int)strcspn(log, "\t\n");
        printf("%.*s%*s", length, log, log[length] == '\t' ? widths[field++] - length : 0, "");
        if (log[length] == '\n') {
            printf("\n");
            field = 0;
        }
        log += length + 1;
    }
}

bool raise_show(void)
{
    static world w;
    bool bound, upcall;
    world_fresh(&w);
    w.quiet = 1;
    world_begin(&w);
    bound = world_bind(&w, PORT).code == EVTCHN_FIFO_DONE;
    w.quiet = 0;
    upcall = world_raise(&w, PORT).code == EVTCHN_FIFO_UPCALL_WANTED;
    printf("A raise of port %u on an empty queue, access by access.\n"
           "X is the hypervisor, G would be the guest, a dash stands where there is nothing;\n"
           "w5 is the event word of port 5, h7 is HEAD of queue 7, and answer 1 wants an upcall:\n\n",
           PORT);
    print_log("side\tkind\tplace\told\toperand\tseen\n");
    print_log(w.log);
    printf("\n");
    return bound && upcall && strcmp(w.log, expected) == 0;
}
