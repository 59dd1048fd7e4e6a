/* A fixed-time sheet for a network, for the programs that ask plancheck_check_sheet. */
#ifndef SHEET_H
#define SHEET_H

#include <stddef.h>
#include <stdint.h>

/* Enough for every network: eight signals with eight phases of at most four digits, and some bytes for damage. */
enum { SHEET_ROOM = 8 * (1 + 8 * 5 + 1) + 16 };

/*
 * Writes a line for each G line of a valid network, and returns its length. A phase lasts its least or its greatest time,
 * which stand in the fields from the eighth on, by pairs: below(2) is 0 for the least. Padding is left out.
 */
static size_t write_sheet(const uint8_t *network, size_t network_len, uint8_t *sheet, uint32_t (*below)(uint32_t))
{
    size_t length = 0;
    uint32_t field = 0, greatest = 0;
    int is_signal = 0, is_taken = 0;
    for (size_t k = 0; k < network_len; k++) {
        uint8_t byte = network[k];
        if (k == 0 || network[k - 1] == '\n') {
            is_signal = byte == 'G';
            is_taken = field = 0;
            byte = 'F';
        } else if (byte == '\t') {
            field++;
            if (field >= 7 && field % 2 == 1)
                greatest = below(2);
            is_taken = field >= 7 && field % 2 == 1 - greatest;
        }
        if (byte == '0' && is_signal && length > 0 && sheet[length - 1] == '\t')
            continue; /* no time is 0 */
        if (is_signal && (field == 0 || is_taken || byte == '\n'))
            sheet[length++] = byte;
    }
    return length;
}

#endif
