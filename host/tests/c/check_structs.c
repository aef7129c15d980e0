/* Structs by value: the library is built by another compiler than this program, and each field has to arrive in its place. That a
 * field came back does not show it, since it may have gone astray on both ways: so each is changed by a report of its own, too. */
#include "checks.h"

static struct degvuurel_settings settings(void) { return settings_of(4, 0x1101, 0x1202, 0x1303, 0x1404, 0x1505); }

/* A station with a value of its own in every field. */
static struct degvuurel_station distinct(bool fault) {
    struct degvuurel_station station;
    int track, island;
    station.settings = settings();
    for (track = 0; track < 4; track++) {
        for (island = 0; island < 5; island++) {
            struct degvuurel_island *at = &station.tracks[track].islands[island];
            const int pattern = 3 * track + island;
            at->occupied = (pattern & 1) != 0;
            at->leaving = (pattern & 2) != 0;
            at->failed = (pattern & 4) != 0;
            at->age = (uint16_t)(0x2000 + 0x0105 * (5 * track + island));
        }
    }
    station.hold = 0x3003;
    station.fault = fault;
    station.conditions[0] = 0x0155;
    station.conditions[1] = 0x02aa;
    return station;
}

/* A refused report returns the old station. */
static void check_refused(bool fault) {
    struct degvuurel_station station = distinct(fault);
    struct degvuurel_taken taken = degvuurel_take(station, report_of(9, 0, 0, 0));
    SAME(taken.answer, DEGVUUREL_NO_SUCH_KIND);
    SAME_STATION(taken.station, distinct(fault));
    SAME_STATION(station, distinct(fault)); /* what was handed over by value stays the caller's */
    station.settings.t5 = station.settings.t2;
    taken = degvuurel_take(station, report_of(DEGVUUREL_CLOCK, 0, 0, 1));
    SAME(taken.answer, DEGVUUREL_OUTSIDE_LIMITS);
    SAME_STATION(taken.station, station);
    SAME(degvuurel_aspect(station), DEGVUUREL_OUT_OF_SERVICE);
}

/* One island is occupied, ages, fails, is restored and is freed, and no other field changes. */
static void check_island(uint8_t track, uint8_t island) {
    struct degvuurel_station expected = normal(settings());
    struct degvuurel_island *at = &expected.tracks[track].islands[island];
    struct degvuurel_station station = AFTER(expected, DEGVUUREL_OCCUPIED, track, island, 0);
    int zone;
    at->occupied = true;
    SAME_STATION(station, expected);
    for (zone = 0; zone < 5; zone++) {
        SAME(degvuurel_zones(station).digits[zone], zone == island ? 0 : 1);
    }
    for (zone = 0; zone < 4; zone++) {
        SAME(degvuurel_presence(station).tracks[zone], zone == track);
    }
    station = AFTER(station, DEGVUUREL_CLOCK, 0, 0, 0x1234);
    at->age = 0x1234;
    SAME_STATION(station, expected);
    station = AFTER(station, DEGVUUREL_FAILED, track, island, 0);
    at->failed = true;
    expected.fault = true;
    SAME_STATION(station, expected);
    station = AFTER(station, DEGVUUREL_RESTORED, track, island, 0);
    at->failed = false;
    SAME_STATION(station, expected);
    SAME(AFTER(station, DEGVUUREL_FREE, track, island, 0).tracks[track].islands[island].occupied, false);
}

/* The mark, the hold, the fault and each head's condition. */
static void check_other_fields(void) {
    struct degvuurel_station expected, station = AFTER(normal(settings()), DEGVUUREL_OCCUPIED, 2, 2, 0);
    expected = station;
    station = AFTER(station, DEGVUUREL_OCCUPIED, 2, 3, 0);
    expected.tracks[2].islands[3].occupied = true;
    expected.tracks[2].islands[3].leaving = true;
    SAME_STATION(station, expected);
    station = AFTER(station, DEGVUUREL_OCCUPIED, 3, 0, 0);
    expected.tracks[3].islands[0].occupied = true;
    expected.hold = settings().t4;
    SAME_STATION(station, expected);
    SAME(degvuurel_aspect(station), DEGVUUREL_GREATEST_RISK);
    station = AFTER(station, DEGVUUREL_HEAD, 0, 0, DEGVUUREL_BOARD_FAILED);
    expected.conditions[0] = DEGVUUREL_BOARD_FAILED;
    SAME_STATION(station, expected);
    station = AFTER(station, DEGVUUREL_HEAD, 1, 0, DEGVUUREL_S3_FAILED);
    expected.conditions[1] = DEGVUUREL_S3_FAILED;
    SAME_STATION(station, expected);
    SAME(degvuurel_heads(station).outputs[0], DEGVUUREL_S3);
    SAME(degvuurel_heads(station).outputs[1], DEGVUUREL_RF | DEGVUUREL_R_PLUS);
}

/* Settings refused give a fresh station of the least ones. */
static void check_made(void) {
    const struct degvuurel_settings equal_timers = settings_of(1, 1, 2, 1, 0, 2), least = settings_of(1, 1, 1, 1, 1, 2);
    struct degvuurel_station fresh = degvuurel_make(settings()).station;
    SAME(degvuurel_make(settings()).answer, DEGVUUREL_DONE);
    SAME_SETTINGS(fresh.settings, settings());
    SAME(fresh.fault, true);
    SAME(degvuurel_make(equal_timers).answer, DEGVUUREL_OUTSIDE_LIMITS);
    fresh.settings = least;
    SAME_STATION(degvuurel_make(equal_timers).station, fresh);
}

void check_structs(void) {
    uint8_t track, island;
    SAME(degvuurel_layout_2(), 2);
    check_refused(true);
    check_refused(false);
    for (track = 0; track < 4; track++) {
        for (island = 0; island < 5; island++) {
            check_island(track, island);
        }
    }
    check_other_fields();
    check_made();
}
