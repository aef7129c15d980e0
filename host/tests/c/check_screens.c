/* The message to the passenger screens: what is told of a station, the text, and what comes back. */
#include "checks.h"

#include <string.h>

static void same_message(int line, struct degvuurel_message found, struct degvuurel_message expected) {
    int place;
    same(line, "message.station", found.station, expected.station);
    same(line, "message.aspect", found.aspect, expected.aspect);
    same(line, "message.tracks", found.tracks, expected.tracks);
    for (place = 0; place < 20; place++) {
        same(line, "message.digits", found.digits[place], expected.digits[place]);
    }
}

#define SAME_MESSAGE(found, expected) same_message(__LINE__, found, expected)

static struct degvuurel_received read_text(const char *text) { return degvuurel_read_message((const uint8_t *)text, strlen(text)); }

/* Track 0's island 4 is occupied, and track 1's island 0: the greatest risk. */
static struct degvuurel_message told(void) {
    struct degvuurel_station station = normal(settings_of(2, 300, 300, 300, 0, 600));
    station = AFTER(station, DEGVUUREL_OCCUPIED, 0, 4, 0);
    return degvuurel_message_of(0x1234, AFTER(station, DEGVUUREL_OCCUPIED, 1, 0, 0));
}

static void check_written(void) {
    const char *text = "{\"station\":4660,\"aspect\":3,\"tracks\":[[1,1,1,1,0],[0,1,1,1,1]]}";
    const size_t length = strlen(text);
    uint8_t bytes[DEGVUUREL_MESSAGE];
    struct degvuurel_message message = told();
    struct degvuurel_written written;
    memset(bytes, 0xee, sizeof bytes);
    written = degvuurel_write_message(message, bytes, length - 1);
    SAME(written.answer, DEGVUUREL_NO_ROOM);
    SAME(written.length, 0);
    SAME(bytes[0], 0xee);
    written = degvuurel_write_message(message, bytes, sizeof bytes);
    SAME(written.answer, DEGVUUREL_DONE);
    SAME_TEXT(bytes, written.length, text);
    SAME(bytes[length], 0xee);
    SAME_MESSAGE(degvuurel_read_message(bytes, written.length).message, message);
    message.aspect = 6;
    written = degvuurel_write_message(message, bytes, 0);
    SAME(written.answer, DEGVUUREL_BAD_MEMBER);
    SAME(written.length, 0);
}

static void check_read(void) {
    struct degvuurel_message nothing;
    const char *text = " {\"x\":[{}], \"\\u0073tation\": 7, \"aspect\":1, \"tracks\":[ [1,0,1,0,1] ], \"station\":8}";
    memset(&nothing, 0, sizeof nothing);
    SAME(read_text(text).answer, DEGVUUREL_DONE);
    SAME(read_text(text).message.station, 7);
    SAME(read_text("{\"station\":7}").answer, DEGVUUREL_BAD_MEMBER);
    SAME_MESSAGE(read_text("{\"station\":7}").message, nothing);
    SAME(read_text("{\"station\":7").answer, DEGVUUREL_NOT_JSON);
    SAME_MESSAGE(read_text("{\"station\":7").message, nothing);
}

/* Settings outside their limits. */
static void check_unfit(void) {
    struct degvuurel_station station = normal(settings_of(2, 300, 300, 300, 0, 600));
    struct degvuurel_message expected;
    memset(&expected, 0, sizeof expected);
    expected.station = 9;
    expected.aspect = DEGVUUREL_OUT_OF_SERVICE;
    expected.tracks = 4;
    station.settings.t5 = 300;
    SAME_MESSAGE(degvuurel_message_of(9, station), expected);
}

void check_screens(void) {
    check_written();
    check_read();
    check_unfit();
}
