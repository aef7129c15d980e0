/* Planner's texts, recorded into lent bytes and lines. */
#include "checks.h"

#include <string.h>

#define SETTINGS "tracks 2\nt1 300\nt2 300\nt3 300\nt4 0\nt5 600\n"

static uint8_t bytes[DEGVUUREL_MOST_BYTES];
static size_t rows[DEGVUUREL_MOST];

/* What is lent holds this before, and the lines are so many sevens. */
enum { UNTOUCHED = 0xee, NO_LINE = 7777777 };

static struct degvuurel_recorded recorded_of(const char *text) {
    size_t row;
    memset(bytes, UNTOUCHED, sizeof bytes);
    for (row = 0; row < DEGVUUREL_MOST; row++) {
        rows[row] = NO_LINE;
    }
    return degvuurel_record((const uint8_t *)text, strlen(text), bytes, rows);
}

/* How many bytes and lines from these places on are no longer as they were. */
static size_t touched_behind(size_t length, size_t count) {
    size_t touched = 0;
    for (; length < sizeof bytes; length++) {
        touched += bytes[length] != UNTOUCHED;
    }
    for (; count < DEGVUUREL_MOST; count++) {
        touched += rows[count] != NO_LINE;
    }
    return touched;
}

static void check_taken(void) {
    static const uint8_t EXPECTED[] = {
        'C', 'E', 'A', 1, 0, 2, 44, 1, 44, 1, 44, 1, 0, 0, 88, 2, /* header */
        7,   0,   0,   0, 0, 0, 0,  0,                            /* normalise: permitted */
        1,   0,   4,   0, 0, 0, 0,  1,                            /* occupied: clearing */
        1,   0,   4,   0, 0, 0, 6,  1,                            /* occupied already, and entered */
    };
    const struct degvuurel_recorded recorded =
        recorded_of("\xef\xbb\xbf" SETTINGS "\nNormalise # now\n\t occupied 00 004\r\noccupied 0 4");
    SAME(recorded.fault, DEGVUUREL_UNDERSTOOD);
    SAME(recorded.line, 0);
    SAME(recorded.count, 3);
    SAME(memcmp(bytes, EXPECTED, sizeof EXPECTED), 0);
    SAME(rows[0], 8);
    SAME(rows[1], 9);
    SAME(rows[2], 10);
    SAME(touched_behind(sizeof EXPECTED, 3), 0);
}

static void misread(int line, const char *text, uint8_t fault, size_t at) {
    const struct degvuurel_recorded recorded = recorded_of(text);
    same(line, "recorded.fault", recorded.fault, fault);
    same(line, "recorded.line", recorded.line, at);
    same(line, "recorded.count", recorded.count, 0);
    same(line, "bytes and lines touched", touched_behind(0, 0), 0);
}

static void check_misread(void) {
    misread(__LINE__, SETTINGS "\nocupied 0 4\n", DEGVUUREL_NOT_A_NAME, 8);
    misread(__LINE__, SETTINGS "normalise\noccupied 0\n", DEGVUUREL_NUMBER_MISSING, 8);
    misread(__LINE__, SETTINGS "normalise now\n", DEGVUUREL_WORD_TOO_MANY, 7);
    misread(__LINE__, SETTINGS "occupied 256 4\n", DEGVUUREL_NOT_A_BYTE, 7);
    misread(__LINE__, SETTINGS "clock 65536\n", DEGVUUREL_NOT_SIXTEEN_BITS, 7);
    misread(__LINE__, SETTINGS "normalise\nt1 300\n", DEGVUUREL_LATE_SETTING, 8);
    misread(__LINE__, SETTINGS "t1 300\n", DEGVUUREL_SET_ALREADY, 7);
    misread(__LINE__, "tracks 2\nnormalise\n", DEGVUUREL_SETTINGS_MISSING, 2);
    misread(__LINE__, "t5 300\ntracks 2\nt1 300\nt2 300\nt3 300\nt4 0\n", DEGVUUREL_SETTINGS_OUTSIDE, 6);
    misread(__LINE__, "tracks 2\n", DEGVUUREL_TEXT_ENDS, 0);
}

/* As many reports as a register has, and one more. */
static void check_most(void) {
    static char text[sizeof SETTINGS + 8 * (DEGVUUREL_MOST + 1)];
    size_t report;
    strcpy(text, SETTINGS);
    for (report = 0; report < DEGVUUREL_MOST; report++) {
        strcat(text + 8 * report, "clock 1\n");
    }
    SAME(recorded_of(text).count, DEGVUUREL_MOST);
    SAME(rows[DEGVUUREL_MOST - 1], 6 + DEGVUUREL_MOST);
    SAME(degvuurel_read(bytes, sizeof bytes).count, DEGVUUREL_MOST);
    strcat(text, "clock 1\n");
    misread(__LINE__, text, DEGVUUREL_TOO_MANY_REPORTS, 7 + DEGVUUREL_MOST);
}

static struct degvuurel_line line_of(const char *line) { return degvuurel_line_in((const uint8_t *)line, strlen(line)); }

static void check_lines(void) {
    const struct degvuurel_line occupied = line_of(" Occupied 1 4 # a train");
    SAME(occupied.name, DEGVUUREL_WORD_OCCUPIED);
    SAME(occupied.fault, DEGVUUREL_UNDERSTOOD);
    SAME(occupied.numbers.kind, DEGVUUREL_OCCUPIED);
    SAME(occupied.numbers.a, 1);
    SAME(occupied.numbers.b, 4);
    SAME(occupied.numbers.spare, 0);
    SAME(occupied.numbers.value, 0);
    SAME(line_of("tracks 3").name, DEGVUUREL_WORD_TRACKS);
    SAME(line_of("tracks 3").numbers.a, 3);
    SAME(line_of("t5 600").name, DEGVUUREL_WORD_T5);
    SAME(line_of("t5 600").numbers.value, 600);
    SAME(line_of("head 1 1023").numbers.value, 1023);
    SAME(line_of("report 9 8 7 6 5").numbers.spare, 6);
    SAME(line_of("ocupied 1 4").name, DEGVUUREL_OTHER_WORD);
    SAME(line_of("ocupied 1 4").fault, DEGVUUREL_NOT_A_NAME);
    SAME(line_of("clock").fault, DEGVUUREL_NUMBER_MISSING);
    SAME(line_of("# nothing").name, DEGVUUREL_NO_WORD);
    SAME(line_of("").fault, DEGVUUREL_UNDERSTOOD);
}

void check_plans(void) {
    check_lines();
    check_taken();
    check_misread();
    check_most();
}
