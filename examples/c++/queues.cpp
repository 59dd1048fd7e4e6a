// queues NETWORK PLAN: judges a plan with the plan check library, and prints the vehicles that queue on each link at each
// boundary. Exit status: 0 accepted, 1 refused, 2 a file cannot be read.
#include "plancheck.h"
#include "plancheck_words.h"

#include <cstdint>
#include <fstream>
#include <iostream>
#include <iterator>
#include <vector>

using Text = std::vector<std::uint8_t>;

static bool read(const char *path, Text &text)
{
    std::ifstream file(path, std::ios::binary);
    text.assign(std::istreambuf_iterator<char>(file), std::istreambuf_iterator<char>());
    return file.is_open() && !file.bad();
}

static void print_queues(const Text &network, const std::vector<std::uint32_t> &ledger)
{
    plancheck_counts_result counts = plancheck_network_counts(network.data(), network.size());
    for (std::uint32_t boundary = 0; boundary <= counts.steps; boundary++) {
        std::cout << "boundary " << boundary << ":";
        for (std::uint32_t link = 1; link <= counts.links; link++) {
            plancheck_link_result state = plancheck_link_state(network.data(), network.size(), ledger.data(),
                                                               ledger.size(), boundary, link);
            std::cout << ' ' << state.queued / 1000.0;
        }
        std::cout << '\n';
    }
}

int main(int count, char **arguments)
{
    Text network, plan;
    if (count != 3 || !read(arguments[1], network) || !read(arguments[2], plan)) {
        std::cerr << "usage: queues NETWORK PLAN, two files that can be read\n";
        return 2;
    }
    std::vector<std::uint32_t> ledger(PLANCHECK_LEDGER_MAX);
    plancheck_plan_result result = plancheck_check_plan(network.data(), network.size(), plan.data(), plan.size(),
                                                        ledger.data(), ledger.size());
    if (result.number != PLANCHECK_OK) {
        const plancheck_words *words = plancheck_words_of(result.number);
        std::cout << "R\t" << result.number << '\t' << result.line << '\t' << result.item << '\n'
                  << (words != nullptr ? words->meaning : "a number that this header does not know") << '\n';
        return 1;
    }
    std::cout << "A\t" << result.admitted << '\t' << result.let_out << '\t' << result.inside << '\t'
              << result.doubled_time << '\n';
    print_queues(network, ledger);
    return 0;
}
