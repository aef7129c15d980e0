/* Starts a register of document 01's worked settings, enters its five reports and prints the sheet. It is C99, and C++11 too. */
#include "degvuurel.h"

#include <stdio.h>

/* Room for any register and any sheet, which are large for a stack. */
static uint8_t bytes[DEGVUUREL_MOST_BYTES];
static uint8_t text[DEGVUUREL_SHEET];

int main(void) {
    const struct degvuurel_settings settings = {2, 300, 300, 300, 0, 600};
    const struct degvuurel_report reports[] = {
        {DEGVUUREL_NORMALISE, 0, 0, 0, 0},
        {DEGVUUREL_OCCUPIED, 0, 4, 0, 0},
        {DEGVUUREL_CLOCK, 0, 0, 0, 300},
        {DEGVUUREL_OCCUPIED, 0, 3, 0, 0},
        {DEGVUUREL_OCCUPIED, 0, 3, 0, 0}, /* occupied already: refused by 6, and entered all the same */
    };
    const size_t count = sizeof reports / sizeof reports[0];
    struct degvuurel_station station = degvuurel_make(settings).station;
    const uint8_t started = degvuurel_start(bytes, sizeof bytes, settings);
    size_t k;

    if (started != DEGVUUREL_DONE) {
        fprintf(stderr, "the settings are refused by %d\n", started);
        return 1;
    }
    for (k = 0; k < count; k++) {
        const struct degvuurel_taken taken = degvuurel_append(bytes, sizeof bytes, k, station, reports[k]);
        if (taken.answer > DEGVUUREL_NOT_CLEAR) {
            fprintf(stderr, "entry %lu is refused by %d, and not entered\n", (unsigned long)(k + 1), taken.answer);
            return 1;
        }
        station = taken.station;
    }
    /* Exactly the filled bytes are printed. */
    fwrite(text, 1, degvuurel_print(bytes, DEGVUUREL_HEADER + DEGVUUREL_ENTRY * count, text), stdout);
    return 0;
}
