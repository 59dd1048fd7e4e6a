/* One plan check, of the first text of inputs.h: qemu reports what is run in it. */
#include "inputs.h"
#include "plancheck.h"

static uint32_t ledger[LEDGER_ROOM];

int main(void)
{
    const struct example *example = &examples[0];
    struct lent network = example->network, plan = example->plan;
    return (int)plancheck_check_plan(network.bytes, network.length, plan.bytes, plan.length, ledger, LEDGER_ROOM).number;
}
