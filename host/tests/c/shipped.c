/* Answers calls of the library, one after the other, so that a test can ask the archive as it is shipped, linked by the kit. A
 * call on standard input is its length, a letter and what the function takes; an answer on standard output is its length and what
 * the function gives. Numbers are low byte first, and a struct is its fields, since the bytes between them are anyone's.
 * tests/random/shipped.rs is the other side. There are no headers of a C library, so what is used of it is declared. */
#include "degvuurel.h"

long read(int file, void *bytes, size_t length);
long write(int file, const void *bytes, size_t length);

/* Room for the longest call, whose register may be too long by some hundred entries, and for the longest sheet. */
static uint8_t asked[1 << 17];
static uint8_t given[1 << 18];
static uint8_t text[DEGVUUREL_SHEET];

/* Room for the longest register that is recorded, and for its lines. */
static uint8_t recorded[DEGVUUREL_MOST_BYTES];
static size_t rows[DEGVUUREL_MOST];

/* The bytes of the call that were taken, and those of the answer that are there. */
static size_t taken;
static size_t filled;

/* What the room for a sheet holds before, which is a byte that no sheet has, and how many bytes are looked at after a sheet: to
 * fill and look at all of them for each would take longer than the rest. */
enum { UNTOUCHED = 0xEE, LOOKED_AT_BEYOND = 256 };

static uint64_t take(int bytes) {
    uint64_t number = 0;
    int place;
    for (place = 0; place < bytes; place++) {
        number |= (uint64_t)asked[taken++] << (8 * place);
    }
    return number;
}

static struct degvuurel_settings take_settings(void) {
    struct degvuurel_settings settings;
    settings.tracks = (uint8_t)take(1);
    settings.t1 = (uint16_t)take(2);
    settings.t2 = (uint16_t)take(2);
    settings.t3 = (uint16_t)take(2);
    settings.t4 = (uint16_t)take(2);
    settings.t5 = (uint16_t)take(2);
    return settings;
}

static struct degvuurel_station take_station(void) {
    struct degvuurel_station station;
    int place;
    station.settings = take_settings();
    for (place = 0; place < 20; place++) {
        struct degvuurel_island *island = &station.tracks[place / 5].islands[place % 5];
        island->occupied = take(1) == 1;
        island->leaving = take(1) == 1;
        island->failed = take(1) == 1;
        island->age = (uint16_t)take(2);
    }
    station.hold = (uint16_t)take(2);
    station.fault = take(1) == 1;
    station.conditions[0] = (uint16_t)take(2);
    station.conditions[1] = (uint16_t)take(2);
    return station;
}

static struct degvuurel_report take_report(void) {
    struct degvuurel_report report;
    report.kind = (uint8_t)take(1);
    report.a = (uint8_t)take(1);
    report.b = (uint8_t)take(1);
    report.spare = (uint8_t)take(1);
    report.value = (uint16_t)take(2);
    return report;
}

static void give(uint64_t number, int bytes) {
    for (; bytes > 0; bytes--) {
        given[filled++] = (uint8_t)number;
        number >>= 8;
    }
}

static void give_bytes(const uint8_t *bytes, size_t length) {
    size_t place;
    for (place = 0; place < length; place++) {
        given[filled++] = bytes[place];
    }
}

static void give_settings(struct degvuurel_settings settings) {
    give(settings.tracks, 1);
    give(settings.t1, 2);
    give(settings.t2, 2);
    give(settings.t3, 2);
    give(settings.t4, 2);
    give(settings.t5, 2);
}

static void give_station(struct degvuurel_station station) {
    int place;
    give_settings(station.settings);
    for (place = 0; place < 20; place++) {
        const struct degvuurel_island island = station.tracks[place / 5].islands[place % 5];
        give(island.occupied, 1);
        give(island.leaving, 1);
        give(island.failed, 1);
        give(island.age, 2);
    }
    give(station.hold, 2);
    give(station.fault, 1);
    give(station.conditions[0], 2);
    give(station.conditions[1], 2);
}

static void give_shown(struct degvuurel_station station) {
    const struct degvuurel_heads_shown heads = degvuurel_heads(station);
    const struct degvuurel_presence_shown presence = degvuurel_presence(station);
    int track;
    give(degvuurel_aspect(station), 1);
    give(heads.outputs[0], 2);
    give(heads.outputs[1], 2);
    give_bytes(degvuurel_zones(station).digits, 5);
    for (track = 0; track < 4; track++) {
        give(presence.tracks[track], 1);
    }
}

static void give_reading(struct degvuurel_reading reading) {
    give(reading.answer, 1);
    give(reading.entry, 8);
    give(reading.count, 8);
    give_station(reading.station);
}

static void start(uint8_t *bytes, size_t length) {
    const struct degvuurel_settings settings = take_settings();
    const struct degvuurel_made made = degvuurel_make(settings);
    give(made.answer, 1);
    give_station(made.station);
    give(degvuurel_start(bytes, length, settings), 1);
    give_bytes(bytes, length);
}

static void append(uint8_t *bytes, size_t length, size_t k) {
    const struct degvuurel_station station = take_station();
    const struct degvuurel_report report = take_report();
    const struct degvuurel_taken after = degvuurel_append(bytes, length, k, station, report);
    give(after.answer, 1);
    give_station(after.station);
    give_shown(after.station);
    give_bytes(bytes, length);
}

static void hand_back(const uint8_t *bytes, size_t length, size_t row) {
    const struct degvuurel_entry_place place = degvuurel_entry(bytes, length, row);
    give(degvuurel_entry_answer(bytes, length, row), 1);
    give(place.answer, 1);
    give(place.at, 8);
    give(place.length, 8);
}

/* Fills the first bytes of the room for a sheet. */
static void untouch(size_t length) {
    size_t place;
    for (place = 0; place < length; place++) {
        text[place] = UNTOUCHED;
    }
}

/* The text, and how many bytes after it were written to. */
static void print(const uint8_t *bytes, size_t length) {
    const size_t printed = degvuurel_print(bytes, length, text);
    size_t place, touched = 0;
    for (place = printed; place < sizeof text && place < printed + LOOKED_AT_BEYOND; place++) {
        touched += text[place] != UNTOUCHED;
    }
    give_bytes(text, printed);
    give(touched, 8);
    untouch(printed);
}

/* A planner's text: what is said of it, the register and its lines, and how many bytes and lines behind them were written to. */
static void record(const uint8_t *bytes, size_t length) {
    struct degvuurel_recorded said;
    size_t place, filled_bytes, touched = 0;
    for (place = 0; place < DEGVUUREL_MOST_BYTES; place++) {
        recorded[place] = UNTOUCHED;
    }
    for (place = 0; place < DEGVUUREL_MOST; place++) {
        rows[place] = UNTOUCHED;
    }
    said = degvuurel_record(bytes, length, recorded, rows);
    filled_bytes = said.fault == DEGVUUREL_UNDERSTOOD ? DEGVUUREL_HEADER + DEGVUUREL_ENTRY * said.count : 0;
    for (place = filled_bytes; place < DEGVUUREL_MOST_BYTES; place++) {
        touched += recorded[place] != UNTOUCHED;
    }
    for (place = said.count; place < DEGVUUREL_MOST; place++) {
        touched += rows[place] != UNTOUCHED;
    }
    give(said.fault, 1);
    give(said.line, 8);
    give(said.count, 8);
    give_bytes(recorded, filled_bytes);
    for (place = 0; place < said.count; place++) {
        give(rows[place], 8);
    }
    give(touched, 8);
}

static void give_sited(struct degvuurel_sited sited) {
    give(sited.answer, 1);
    give(sited.distance.decimetres, 4);
}

/* All distances of a speed, to a step beyond the limits. */
static void site(uint16_t speed) {
    struct degvuurel_seconds message;
    uint8_t tracks;
    for (message.number = 0; message.number <= 61; message.number++) {
        give_sited(degvuurel_advance(speed, message));
    }
    for (tracks = 0; tracks <= 5; tracks++) {
        give_sited(degvuurel_warning(speed, tracks));
    }
}

/* A letter that is none is answered by nothing, which no call expects. */
static void answer(void) {
    const uint8_t letter = (uint8_t)take(1);
    const size_t row = (size_t)take(8);
    const size_t length = (size_t)take(8);
    uint8_t *bytes = asked + taken;
    taken += length;
    switch (letter) {
    case 's': start(bytes, length); break;
    case 'a': append(bytes, length, row); break;
    case 'r': give_reading(degvuurel_read(bytes, length)); give_settings(degvuurel_settings_in(bytes, length)); break;
    case 'n': give_reading(degvuurel_step(bytes, length, row)); break;
    case 'e': hand_back(bytes, length, row); break;
    case 'm': give_reading(degvuurel_browse(bytes, length, row)); break;
    case 'f': give_reading(degvuurel_forward(bytes, length, row)); break;
    case 'b': give_reading(degvuurel_back(bytes, length, row)); break;
    case 'p': print(bytes, length); break;
    case 't': record(bytes, length); break;
    case 'd': site((uint16_t)row); break;
    }
}

static int got(uint8_t *bytes, size_t length) {
    while (length > 0) {
        const long part = read(0, bytes, length);
        if (part <= 0) {
            return 0;
        }
        bytes += part;
        length -= (size_t)part;
    }
    return 1;
}

static int sent(const uint8_t *bytes, size_t length) {
    while (length > 0) {
        const long part = write(1, bytes, length);
        if (part <= 0) {
            return 0;
        }
        bytes += part;
        length -= (size_t)part;
    }
    return 1;
}

int main(void) {
    untouch(sizeof text);
    while (got(asked, 8)) {
        size_t length;
        taken = 0;
        length = (size_t)take(8);
        if (length > sizeof asked || !got(asked, length)) {
            return 1;
        }
        taken = 0;
        filled = 8;
        answer();
        length = filled;
        filled = 0;
        give(length - 8, 8);
        if (!sent(given, length)) {
            return 1;
        }
    }
    return 0;
}
