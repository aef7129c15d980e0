/* What stations and heads show, and siting: the rows C1 to C14 of document 01, the last two as
 * request 5 of document 02 has them. */
#include "checks.h"

/* The settings of document 01's rows. */
static struct degvuurel_settings with_hold(uint16_t t4) { return settings_of(2, 300, 300, 300, t4, 600); }

/* The outputs of the aspect, as the rows have them. */
static uint16_t shown(struct degvuurel_station station) { return degvuurel_outputs(degvuurel_aspect(station)); }

/* "Outputs are nine bits, bit 0 first: VF, VI, NI, RF, R+, S1, S2, S3, S4." */
static void check_names_of_outputs(void) {
    SAME(DEGVUUREL_VF, 1);
    SAME(DEGVUUREL_VI, 2);
    SAME(DEGVUUREL_NI, 4);
    SAME(DEGVUUREL_RF, 8);
    SAME(DEGVUUREL_R_PLUS, 16);
    SAME(DEGVUUREL_S1, 32);
    SAME(DEGVUUREL_S2, 64);
    SAME(DEGVUUREL_S3, 128);
    SAME(DEGVUUREL_S4, 256);
}

/* "Bits 0 to 3 green, orange, red, OTRO TREN board; bits 4 to 7 sounders S1 to S4; bit 8 power; bit 9 communication." */
static void check_names_of_failed_parts(void) {
    SAME(DEGVUUREL_GREEN_FAILED, 1);
    SAME(DEGVUUREL_ORANGE_FAILED, 2);
    SAME(DEGVUUREL_RED_FAILED, 4);
    SAME(DEGVUUREL_BOARD_FAILED, 8);
    SAME(DEGVUUREL_S1_FAILED, 16);
    SAME(DEGVUUREL_S2_FAILED, 32);
    SAME(DEGVUUREL_S3_FAILED, 64);
    SAME(DEGVUUREL_S4_FAILED, 128);
    SAME(DEGVUUREL_POWER_FAILED, 256);
    SAME(DEGVUUREL_COMMUNICATION_FAILED, 512);
    SAME(DEGVUUREL_EVERY_PART_FAILED, 1023);
}

static void check_outputs(void) {
    SAME(degvuurel_outputs(DEGVUUREL_PERMITTED), 1);
    SAME(degvuurel_outputs(DEGVUUREL_CLEARING), 34);
    SAME(degvuurel_outputs(DEGVUUREL_FORBIDDEN), 72);
    SAME(degvuurel_outputs(DEGVUUREL_GREATEST_RISK), 152);
    SAME(degvuurel_outputs(DEGVUUREL_SURROUNDINGS), 260);
    SAME(degvuurel_outputs(DEGVUUREL_OUT_OF_SERVICE), 0);
    SAME(degvuurel_outputs(6), 0);
    SAME(degvuurel_head(DEGVUUREL_NI | DEGVUUREL_S4, 0), DEGVUUREL_NI | DEGVUUREL_S4);
    SAME(degvuurel_head(DEGVUUREL_NI | DEGVUUREL_S4, DEGVUUREL_POWER_FAILED), 0);
    SAME(degvuurel_head(152, 8), 128);
    SAME(degvuurel_head(152, 48), 0);
    SAME(degvuurel_head(152, 64), 24);
}

static void check_siting(void) {
    const struct degvuurel_seconds none = {0}, six = {6}, most = {60}, too_long = {61};
    SAME(degvuurel_warning(155, 2).distance.decimetres, 6028);
    SAME(degvuurel_warning(126, 1).distance.decimetres, 2450);
    SAME(degvuurel_warning(126, 1).answer, DEGVUUREL_DONE);
    SAME(degvuurel_advance(155, none).distance.decimetres, 12917);
    SAME(degvuurel_advance(155, six).distance.decimetres, 15500);
    SAME(degvuurel_advance(350, most).distance.decimetres, 87500);
    SAME(degvuurel_advance(350, most).answer, DEGVUUREL_DONE);
    SAME(degvuurel_advance(350, too_long).answer, DEGVUUREL_OUTSIDE_LIMITS);
    SAME(degvuurel_advance(350, too_long).distance.decimetres, 0);
    SAME(degvuurel_warning(351, 1).answer, DEGVUUREL_OUTSIDE_LIMITS);
    SAME(degvuurel_warning(350, 5).answer, DEGVUUREL_OUTSIDE_LIMITS);
}

/* C1 to C8: a train passes, and a second one comes. */
static void check_trains(void) {
    struct degvuurel_station held, station = degvuurel_make(with_hold(0)).station;
    SAME(degvuurel_aspect(station), DEGVUUREL_OUT_OF_SERVICE);
    station = AFTER(station, DEGVUUREL_NORMALISE, 0, 0, 0);
    SAME(degvuurel_aspect(station), DEGVUUREL_PERMITTED);
    station = AFTER(station, DEGVUUREL_OCCUPIED, 0, 4, 0);
    SAME(shown(station), 34);
    station = AFTER(station, DEGVUUREL_OCCUPIED, 0, 3, 0);
    SAME(shown(station), 72);
    station = AFTER(station, DEGVUUREL_FREE, 0, 4, 0);
    station = AFTER(station, DEGVUUREL_OCCUPIED, 0, 2, 0);
    station = AFTER(station, DEGVUUREL_OCCUPIED, 0, 1, 0);
    station = AFTER(station, DEGVUUREL_FREE, 0, 3, 0);
    station = AFTER(station, DEGVUUREL_FREE, 0, 2, 0);
    SAME(shown(station), 1);
    held = AFTER(station, DEGVUUREL_OCCUPIED, 0, 0, 0);
    held = AFTER(held, DEGVUUREL_FREE, 0, 1, 0);
    held = AFTER(held, DEGVUUREL_CLOCK, 0, 0, 299);
    SAME(shown(held), 1);
    SAME(shown(AFTER(held, DEGVUUREL_CLOCK, 0, 0, 1)), 260);
    station = AFTER(station, DEGVUUREL_OCCUPIED, 1, 4, 0);
    SAME(shown(station), 152);
    station = AFTER(station, DEGVUUREL_OCCUPIED, 0, 0, 0);
    station = AFTER(station, DEGVUUREL_FREE, 0, 1, 0);
    station = AFTER(station, DEGVUUREL_OCCUPIED, 1, 3, 0);
    station = AFTER(station, DEGVUUREL_FREE, 1, 4, 0);
    SAME(shown(station), 72);
}

/* C9 to C11: the hold, a stuck warning island, a normalise that is refused. */
static void check_timers(void) {
    struct degvuurel_station station = AFTER(normal(with_hold(50)), DEGVUUREL_OCCUPIED, 0, 4, 0);
    station = AFTER(station, DEGVUUREL_OCCUPIED, 1, 0, 0);
    station = AFTER(station, DEGVUUREL_FREE, 1, 0, 0);
    SAME(shown(station), 152);
    station = AFTER(station, DEGVUUREL_CLOCK, 0, 0, 49);
    SAME(shown(station), 152);
    SAME(shown(AFTER(station, DEGVUUREL_CLOCK, 0, 0, 1)), 34);

    station = AFTER(normal(with_hold(0)), DEGVUUREL_OCCUPIED, 0, 3, 0);
    station = AFTER(station, DEGVUUREL_CLOCK, 0, 0, 599);
    SAME(shown(station), 260);
    SAME(degvuurel_answer(station, report_of(DEGVUUREL_NORMALISE, 0, 0, 0)), DEGVUUREL_NOT_CLEAR);
    station = AFTER(station, DEGVUUREL_CLOCK, 0, 0, 1);
    SAME(shown(station), 0);
    SAME(shown(AFTER(station, DEGVUUREL_FREE, 0, 3, 0)), 0);
}

void check_stations(void) {
    check_names_of_outputs();
    check_names_of_failed_parts();
    check_outputs();
    check_siting();
    check_trains();
    check_timers();
}
