/*
 * traces: three vehicles come to a red line, which turns green after five seconds. Prints a time-distance table, one line a second: the time, and
 * the place of each vehicle in metres.
 */
#include "plancheck.h"

#include <inttypes.h>
#include <stdio.h>

enum { VEHICLES = 3, SECONDS = 10, GREEN_AT = 5 };

int main(void)
{
    double places[VEHICLES] = {40.0, 25.0, 12.5};
    const double advances[VEHICLES] = {12.5, 12.5, 12.5};
    const double red_line = 60.0;
    const double spacing = 7.5;

    for (int second = 0; second <= SECONDS; second++) {
        printf("%d\t%.1f\t%.1f\t%.1f\n", second, places[0], places[1], places[2]);
        size_t red_lines = second < GREEN_AT ? 1 : 0;
        plancheck_network_result result =
            plancheck_step_vehicles(places, VEHICLES, advances, VEHICLES, &red_line, red_lines, spacing);
        if (result.number != PLANCHECK_OK) {
            fprintf(stderr, "refusal %" PRIu32 "\n", result.number);
            return 1;
        }
    }
    return 0;
}
