/* Calls every function of the library and compares what it gives with documents 01 and 02. It is C99, and C++11 too. */
#include "checks.h"

#include <stdio.h>
#include <string.h>

static unsigned long differences;

void same(int line, const char *what, uint64_t found, uint64_t expected) {
    if (found != expected) {
        fprintf(stderr, "line %d: %s is %lu, not %lu\n", line, what, (unsigned long)found, (unsigned long)expected);
        differences++;
    }
}

void same_settings(int line, struct degvuurel_settings found, struct degvuurel_settings expected) {
    same(line, "settings.tracks", found.tracks, expected.tracks);
    same(line, "settings.t1", found.t1, expected.t1);
    same(line, "settings.t2", found.t2, expected.t2);
    same(line, "settings.t3", found.t3, expected.t3);
    same(line, "settings.t4", found.t4, expected.t4);
    same(line, "settings.t5", found.t5, expected.t5);
}

void same_report(int line, struct degvuurel_report found, struct degvuurel_report expected) {
    same(line, "report.kind", found.kind, expected.kind);
    same(line, "report.a", found.a, expected.a);
    same(line, "report.b", found.b, expected.b);
    same(line, "report.spare", found.spare, expected.spare);
    same(line, "report.value", found.value, expected.value);
}

static void same_island(int line, struct degvuurel_island found, struct degvuurel_island expected) {
    same(line, "island.occupied", found.occupied, expected.occupied);
    same(line, "island.leaving", found.leaving, expected.leaving);
    same(line, "island.failed", found.failed, expected.failed);
    same(line, "island.age", found.age, expected.age);
}

void same_station(int line, struct degvuurel_station found, struct degvuurel_station expected) {
    int track, island;
    same_settings(line, found.settings, expected.settings);
    for (track = 0; track < 4; track++) {
        for (island = 0; island < 5; island++) {
            same_island(line, found.tracks[track].islands[island], expected.tracks[track].islands[island]);
        }
    }
    same(line, "station.hold", found.hold, expected.hold);
    same(line, "station.fault", found.fault, expected.fault);
    same(line, "station.conditions[0]", found.conditions[0], expected.conditions[0]);
    same(line, "station.conditions[1]", found.conditions[1], expected.conditions[1]);
}

void same_text(int line, const uint8_t *found, size_t length, const char *expected) {
    if (length != strlen(expected) || memcmp(found, expected, length) != 0) {
        fprintf(stderr, "line %d: the text is '%.*s', not '%s'\n", line, (int)length, (const char *)found, expected);
        differences++;
    }
}

struct degvuurel_settings settings_of(uint8_t tracks, uint16_t t1, uint16_t t2, uint16_t t3, uint16_t t4, uint16_t t5) {
    struct degvuurel_settings settings;
    settings.tracks = tracks;
    settings.t1 = t1;
    settings.t2 = t2;
    settings.t3 = t3;
    settings.t4 = t4;
    settings.t5 = t5;
    return settings;
}

struct degvuurel_report report_of(uint8_t kind, uint8_t a, uint8_t b, uint16_t value) {
    struct degvuurel_report report;
    report.kind = kind;
    report.a = a;
    report.b = b;
    report.spare = 0;
    report.value = value;
    return report;
}

struct degvuurel_station after(int line, struct degvuurel_station station, uint8_t kind, uint8_t a, uint8_t b, uint16_t value) {
    const struct degvuurel_taken taken = degvuurel_take(station, report_of(kind, a, b, value));
    same(line, "answer", taken.answer, DEGVUUREL_DONE);
    return taken.station;
}

struct degvuurel_station normal(struct degvuurel_settings settings) {
    return AFTER(degvuurel_make(settings).station, DEGVUUREL_NORMALISE, 0, 0, 0);
}

int main(void) {
    check_stations();
    check_structs();
    check_registers();
    check_plans();
    check_screens();
    return differences == 0 ? 0 : 1;
}
