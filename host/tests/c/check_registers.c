/* Registers and sheets in lent bytes. */
#include "checks.h"

#include <string.h>

static struct degvuurel_settings settings(void) { return settings_of(2, 0x1101, 0x1202, 0x1303, 0x1404, 0x1505); }

/* A register of three entries has 40 bytes. What lies behind them belongs to nobody. */
enum { FILLED = DEGVUUREL_HEADER + 3 * DEGVUUREL_ENTRY, ROOM = FILLED + 8 };

static uint8_t bytes[ROOM];
static uint8_t text[DEGVUUREL_SHEET];

/* Every field of the settings and of a report has its own bytes in the register. */
static const uint8_t EXPECTED[ROOM] = {
    'C',  'E',  'A',  1,    0,    2,    0x01, 0x11, 0x02, 0x12, 0x03, 0x13, 0x04, 0x14, 0x05, 0x15, /* header */
    7,    0,    0,    0,    0,    0,    0,    0,                                                    /* normalise: permitted */
    9,    0x21, 0x22, 0x23, 0x24, 0x25, 1,    0,                                                    /* no such kind */
    3,    0,    0,    0,    0x34, 0x12, 0,    0,                                                    /* clock */
    0xee, 0xee, 0xee, 0xee, 0xee, 0xee, 0xee, 0xee,
};

/* A report of no kind, with a number of its own in every field. */
static struct degvuurel_report no_kind(void) {
    struct degvuurel_report report = report_of(9, 0x21, 0x22, 0x2524);
    report.spare = 0x23;
    return report;
}

static void check_filling(void) {
    struct degvuurel_station station = degvuurel_make(settings()).station;
    struct degvuurel_taken taken;
    memset(bytes, 0xee, sizeof bytes);
    SAME(degvuurel_start(bytes, 15, settings()), DEGVUUREL_NO_ROOM);
    SAME(bytes[0], 0xee);
    SAME(degvuurel_start(bytes, FILLED, settings()), DEGVUUREL_DONE);
    SAME(bytes[16], 0xee);
    taken = degvuurel_append(bytes, FILLED, 0, station, report_of(DEGVUUREL_NORMALISE, 0, 0, 0));
    SAME(taken.answer, DEGVUUREL_DONE);
    station.fault = false;
    SAME_STATION(taken.station, station);
    taken = degvuurel_append(bytes, FILLED, 1, station, no_kind());
    SAME(taken.answer, DEGVUUREL_NO_SUCH_KIND);
    SAME_STATION(taken.station, station);
    taken = degvuurel_append(bytes, FILLED, 2, station, report_of(DEGVUUREL_CLOCK, 0, 0, 0x1234));
    SAME(taken.answer, DEGVUUREL_DONE);
    taken = degvuurel_append(bytes, FILLED, 3, station, report_of(DEGVUUREL_CLOCK, 0, 0, 1));
    SAME(taken.answer, DEGVUUREL_NO_ROOM);
    SAME(memcmp(bytes, EXPECTED, sizeof bytes), 0);
}

/* What a read or a step returns, where the station after it is given. */
static void same_reading(int line, struct degvuurel_reading found, size_t count, bool fault) {
    struct degvuurel_station station = degvuurel_make(settings()).station;
    station.fault = fault;
    same(line, "reading.answer", found.answer, DEGVUUREL_DONE);
    same(line, "reading.entry", found.entry, 0);
    same(line, "reading.count", found.count, count);
    same_station(line, found.station, station);
}

static void check_reading(void) {
    same_reading(__LINE__, degvuurel_read(bytes, FILLED), 3, false);
    same_reading(__LINE__, degvuurel_step(bytes, FILLED, 0), 0, true);
    same_reading(__LINE__, degvuurel_step(bytes, FILLED, 2), 2, false);
    same_reading(__LINE__, degvuurel_browse(bytes, FILLED, 1), 1, false);
    same_reading(__LINE__, degvuurel_forward(bytes, FILLED, 1), 2, false);
    same_reading(__LINE__, degvuurel_back(bytes, FILLED, 1), 0, true);
    SAME(degvuurel_step(bytes, FILLED, 4).answer, DEGVUUREL_NO_SUCH_ROW);
    SAME(degvuurel_browse(bytes, FILLED, 4).answer, DEGVUUREL_NO_SUCH_ROW);
    SAME(degvuurel_forward(bytes, FILLED, 3).answer, DEGVUUREL_NO_SUCH_ROW);
    SAME(degvuurel_back(bytes, FILLED, 0).answer, DEGVUUREL_NO_SUCH_ROW);
    SAME(degvuurel_read(bytes, FILLED - 1).answer, DEGVUUREL_CUT_ENTRY);
    SAME(degvuurel_read(bytes, 15).answer, DEGVUUREL_NOT_A_REGISTER);
}

static void check_handing_back(void) {
    const struct degvuurel_entry_place third = degvuurel_entry(bytes, FILLED, 3), none = degvuurel_entry(bytes, FILLED, 0);
    SAME(degvuurel_entry_answer(bytes, FILLED, 3), DEGVUUREL_DONE);
    SAME(degvuurel_entry_answer(bytes, FILLED, 0), DEGVUUREL_NO_SUCH_ROW);
    SAME(third.answer, DEGVUUREL_DONE);
    SAME(third.at, 32);
    SAME(third.length, DEGVUUREL_ENTRY);
    SAME(none.answer, DEGVUUREL_NO_SUCH_ROW);
    SAME(none.at, 0);
    SAME(none.length, 0);
    SAME_REPORT(degvuurel_report_in(bytes + third.at, third.length), report_of(DEGVUUREL_CLOCK, 0, 0, 0x1234));
    SAME_REPORT(degvuurel_report_in(bytes + 24, DEGVUUREL_ENTRY), no_kind());
    SAME_REPORT(degvuurel_report_in(bytes, 0), report_of(0, 0, 0, 0));
    SAME_SETTINGS(degvuurel_settings_in(bytes, FILLED), settings());
}

static void check_sheets(void) {
    static const char SHEET[] = "entry zones outputs answer\n1 11111 100000000 0\n2 11111 100000000 1\n3 11111 100000000 0\n";
    struct degvuurel_row_fields fields;
    fields.entry = 8190;
    memcpy(fields.zones, "\1\0\1\1\0", sizeof fields.zones);
    fields.outputs = DEGVUUREL_VI | DEGVUUREL_S1;
    fields.answer = 13;
    SAME_TEXT(text, degvuurel_print(bytes, FILLED, text), SHEET);
    SAME_TEXT(text, degvuurel_title_line(text, sizeof text), "entry zones outputs answer\n");
    SAME_TEXT(text, degvuurel_row_line(text, sizeof text, fields), "8190 10110 010001000 13\n");
    SAME_TEXT(text, degvuurel_refusal_line(text, sizeof text, 13, 2), "refused 13 at 2\n");
    SAME_TEXT(text, degvuurel_refusal_line(text, sizeof text, 9, 0), "refused 9\n");
    SAME_TEXT(text, degvuurel_title_line(text, 26), "");
    SAME_TEXT(text, degvuurel_print(bytes, 0, text), "refused 9\n");
}

/* A wrong answer in the second entry is named, and stepping goes as far as it. */
static void check_damaged(void) {
    struct degvuurel_reading reading;
    bytes[24 + 6] = 2;
    reading = degvuurel_read(bytes, FILLED);
    SAME(reading.answer, DEGVUUREL_NOT_REPLAYED);
    SAME(reading.entry, 2);
    SAME(reading.count, 0);
    SAME(reading.station.settings.tracks, 1);
    SAME(reading.station.settings.t5, 2);
    same_reading(__LINE__, degvuurel_step(bytes, FILLED, 1), 1, false);
    SAME_TEXT(text, degvuurel_print(bytes, FILLED, text), "refused 13 at 2\n");
}

void check_registers(void) {
    check_filling();
    check_reading();
    check_handing_back();
    check_sheets();
    check_damaged();
}
