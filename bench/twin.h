/* The plain C twin of the plan check library: the same three calls, to measure the library against. */
#ifndef TWIN_H
#define TWIN_H

#include "plancheck.h"

plancheck_network_result twin_check_network(const uint8_t *network, size_t network_len);

plancheck_plan_result twin_check_plan(const uint8_t *network, size_t network_len, const uint8_t *plan, size_t plan_len,
                                      uint32_t *ledger, size_t ledger_len);

plancheck_link_result twin_link_state(const uint8_t *network, size_t network_len, const uint32_t *ledger,
                                      size_t ledger_len, uint32_t boundary, uint32_t link);

#endif
