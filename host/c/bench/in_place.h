/*
 * Raise, unmask, service and clear_mask in C that does not step: each call performs its atomic accesses itself, on the shared
 * words. On the library's records and ledger, with its answers and counts of accesses; lock and lengths as evtchn_fifo.h has them.
 */
#ifndef IN_PLACE_H
#define IN_PLACE_H

#include "evtchn_fifo_atomic.h"

evtchn_fifo_next in_place_raise(evtchn_fifo_domain *bytes, uint16_t *ledger, size_t entries, const evtchn_fifo_shared *shared, uint64_t port);
evtchn_fifo_next in_place_unmask(evtchn_fifo_domain *bytes, uint16_t *ledger, size_t entries, const evtchn_fifo_shared *shared, uint64_t port);
evtchn_fifo_next in_place_service(evtchn_fifo_guest *bytes, const evtchn_fifo_shared *shared);
evtchn_fifo_next in_place_clear_mask(evtchn_fifo_guest *bytes, const evtchn_fifo_shared *shared, uint64_t port);

#endif
