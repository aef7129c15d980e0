/* What a class 2-A platform crossing must show, from a library whose every function is proved. For C99 and later, and C++11 and
 * later. Link with the archive libexport.a, which needs no other library: on x86-64 the one in crates/export/out/, which `rt lib`
 * in crates/export proves and builds; on Arm the one in crates/export/out/aarch64/, by `tools/archive-for-arm` on x86-64.
 *
 * Any numbers are taken, and what is wrong with them is answered by a number. This is what a caller keeps to:
 *
 * - A pointer and a length are one run of that many bytes. The pointer is not null, even where the length is 0.
 * - While a function is at work, nobody else writes to the bytes lent to it, and two runs lent together do not overlap.
 * - A bool is 0 or 1. A struct that was never filled may hold other bytes, so fill it before it is handed over.
 * - The text of degvuurel_print has room for DEGVUUREL_SHEET bytes. The register of degvuurel_record has room for
 *   DEGVUUREL_MOST_BYTES bytes, and its rows for DEGVUUREL_MOST lines.
 *
 * Nothing is kept between calls. A station is a plain value: it goes in, and the next one comes back. degvuurel_words.h has the
 * numbers in words, for whoever shows them. */
#ifndef DEGVUUREL_H
#define DEGVUUREL_H

#if !defined(__linux__) || !defined(__LP64__) || !(defined(__x86_64__) || (defined(__aarch64__) && defined(__AARCH64EL__)))
#error "degvuurel: the proved library is for Linux on x86-64 and on 64-bit Arm"
#endif

#include <stdbool.h>
#include <stddef.h>
#include <stdint.h>

/* The answers: document 01, "The numbers it answers"; 15 and 16: document 02, request 1. */
enum {
    DEGVUUREL_DONE = 0,
    DEGVUUREL_NO_SUCH_KIND = 1,    /* kind is not 1 to 7 */
    DEGVUUREL_BAD_FIELD = 2,       /* spare not 0, a field shown as 0 is not, clock value 0, condition above 1023 */
    DEGVUUREL_NO_SUCH_TRACK = 3,   /* no such track */
    DEGVUUREL_NO_SUCH_ISLAND = 4,  /* island above 4 */
    DEGVUUREL_NO_SUCH_HEAD = 5,    /* head above 1 */
    DEGVUUREL_ALREADY_SO = 6,      /* occupied, free, failed or not failed already */
    DEGVUUREL_NOT_CLEAR = 7,       /* normalise with an island occupied or a detector failed */
    DEGVUUREL_OUTSIDE_LIMITS = 8,  /* setting or siting number outside its limits; header settings not the station's */
    DEGVUUREL_NOT_A_REGISTER = 9,  /* register shorter than 16 bytes or wrong mark */
    DEGVUUREL_OTHER_VERSION = 10,  /* version not 1 */
    DEGVUUREL_CUT_ENTRY = 11,      /* length less 16 is no multiple of 8 */
    DEGVUUREL_NO_ROOM = 12,        /* no room, or more than 8,190 entries */
    DEGVUUREL_NOT_REPLAYED = 13,   /* an entry's answer or aspect is not what the replay gives */
    DEGVUUREL_NO_SUCH_ROW = 14,    /* a row above the count, or row 0 handed back */
    DEGVUUREL_NOT_JSON = 15,       /* not RFC 8259 text, too long or too deep */
    DEGVUUREL_BAD_MEMBER = 16      /* a member of a message missing, of another form or outside its range */
};

/* The aspects: document 01, "From islands to aspect". */
enum {
    DEGVUUREL_PERMITTED = 0,
    DEGVUUREL_CLEARING = 1,
    DEGVUUREL_FORBIDDEN = 2,
    DEGVUUREL_GREATEST_RISK = 3,
    DEGVUUREL_SURROUNDINGS = 4,
    DEGVUUREL_OUT_OF_SERVICE = 5
};

/* The nine outputs, five lamps and four sounders, joined by |: document 01, "From islands to aspect". */
enum {
    DEGVUUREL_VF = 1 << 0,     /* verde fijo: green, steady */
    DEGVUUREL_VI = 1 << 1,     /* verde intermitente: green, flashing */
    DEGVUUREL_NI = 1 << 2,     /* naranja intermitente: orange, flashing */
    DEGVUUREL_RF = 1 << 3,     /* rojo fijo: red, steady */
    DEGVUUREL_R_PLUS = 1 << 4, /* R+: the board OTRO TREN */
    DEGVUUREL_S1 = 1 << 5,     /* the sounder of VI */
    DEGVUUREL_S2 = 1 << 6,     /* the sounder of RF */
    DEGVUUREL_S3 = 1 << 7,     /* the sounder of R+ */
    DEGVUUREL_S4 = 1 << 8      /* the sounder of NI */
};

/* What has failed of a head, its condition, joined by |: document 01, "The heads". These are other bits than those of the
 * outputs: DEGVUUREL_S1_FAILED is not DEGVUUREL_S1. */
enum {
    DEGVUUREL_GREEN_FAILED = 1 << 0,
    DEGVUUREL_ORANGE_FAILED = 1 << 1,
    DEGVUUREL_RED_FAILED = 1 << 2,
    DEGVUUREL_BOARD_FAILED = 1 << 3, /* OTRO TREN */
    DEGVUUREL_S1_FAILED = 1 << 4,
    DEGVUUREL_S2_FAILED = 1 << 5,
    DEGVUUREL_S3_FAILED = 1 << 6,
    DEGVUUREL_S4_FAILED = 1 << 7,
    DEGVUUREL_POWER_FAILED = 1 << 8,
    DEGVUUREL_COMMUNICATION_FAILED = 1 << 9,
    DEGVUUREL_EVERY_PART_FAILED = 1023 /* the greatest condition that is taken */
};

/* The kinds of report: document 01, "Reports". */
enum {
    DEGVUUREL_OCCUPIED = 1,  /* a is the track, b the island */
    DEGVUUREL_FREE = 2,      /* a is the track, b the island */
    DEGVUUREL_CLOCK = 3,     /* value is the ticks, each a tenth of a second */
    DEGVUUREL_FAILED = 4,    /* a is the track, b the island */
    DEGVUUREL_RESTORED = 5,  /* a is the track, b the island */
    DEGVUUREL_HEAD = 6,      /* a is the head, value its condition */
    DEGVUUREL_NORMALISE = 7
};

/* What is wrong with a planner's text: 1 to 10 with one of its lines, 11 when it ends. The first line with a fault decides, and of
 * more than one there the first of 1, then 2, 4 or 5 from left to right, 3, 6, 7, 9, 8, 10. */
enum {
    DEGVUUREL_UNDERSTOOD = 0,
    DEGVUUREL_NOT_A_NAME = 1,        /* the first word is not a setting, and not a kind of report */
    DEGVUUREL_NUMBER_MISSING = 2,    /* a number is missing */
    DEGVUUREL_WORD_TOO_MANY = 3,     /* a word too many */
    DEGVUUREL_NOT_A_BYTE = 4,        /* not a number from 0 to 255 */
    DEGVUUREL_NOT_SIXTEEN_BITS = 5,  /* not a number from 0 to 65535 */
    DEGVUUREL_LATE_SETTING = 6,      /* a setting after the first report */
    DEGVUUREL_SET_ALREADY = 7,       /* set already */
    DEGVUUREL_SETTINGS_MISSING = 8,  /* a report before all six settings */
    DEGVUUREL_SETTINGS_OUTSIDE = 9,  /* with this the settings are outside their limits */
    DEGVUUREL_TOO_MANY_REPORTS = 10, /* more than 8190 reports */
    DEGVUUREL_TEXT_ENDS = 11         /* the text ends before all six settings */
};

/* The words that a line of a planner's text begins with: a setting or a kind of report; another word; or none. */
enum {
    DEGVUUREL_WORD_TRACKS = 0,
    DEGVUUREL_WORD_T1 = 1,
    DEGVUUREL_WORD_T2 = 2,
    DEGVUUREL_WORD_T3 = 3,
    DEGVUUREL_WORD_T4 = 4,
    DEGVUUREL_WORD_T5 = 5,
    DEGVUUREL_WORD_OCCUPIED = 6,
    DEGVUUREL_WORD_FREE = 7,
    DEGVUUREL_WORD_CLOCK = 8,
    DEGVUUREL_WORD_FAILED = 9,
    DEGVUUREL_WORD_RESTORED = 10,
    DEGVUUREL_WORD_HEAD = 11,
    DEGVUUREL_WORD_NORMALISE = 12,
    DEGVUUREL_WORD_REPORT = 13,
    DEGVUUREL_OTHER_WORD = 14,
    DEGVUUREL_NO_WORD = 15
};

/* The bytes of a register's header and of an entry, the most entries, and the bytes of the longest sheet. */
#define DEGVUUREL_HEADER 16
#define DEGVUUREL_ENTRY 8
#define DEGVUUREL_MOST 8190
#define DEGVUUREL_MOST_BYTES (DEGVUUREL_HEADER + DEGVUUREL_ENTRY * DEGVUUREL_MOST)
#define DEGVUUREL_SHEET 188397

/* The bytes of the longest message that is written, and of the longest that is read. */
#define DEGVUUREL_MESSAGE 87
#define DEGVUUREL_MESSAGE_READ 4096

#ifdef __cplusplus
extern "C" {
#endif

/* The number of tracks, 1 to 4, and the timers in ticks. T4 may be 0, the others not, and T5 is greater than T2. */
struct degvuurel_settings {
    uint8_t tracks;
    uint16_t t1; /* of the advance islands */
    uint16_t t2; /* of the warning islands */
    uint16_t t3; /* of the crossing */
    uint16_t t4; /* the hold after the greatest risk */
    uint16_t t5; /* from which age on an occupied warning island latches the fault */
};

/* An island is free, or occupied with a mark and an age in ticks. Its detector may have failed. */
struct degvuurel_island {
    bool occupied;
    bool leaving;
    bool failed;
    uint16_t age;
};

/* Advance side 1, warning side 1, crossing, warning side 2, advance side 2. */
struct degvuurel_track {
    struct degvuurel_island islands[5];
};

/* Up to four tracks, of which the settings' number count. The hold is what is left of T4, in ticks. */
struct degvuurel_station {
    struct degvuurel_settings settings;
    struct degvuurel_track tracks[4];
    uint16_t hold;
    bool fault;
    uint16_t conditions[2];
};

/* A report, six bytes of the register. */
struct degvuurel_report {
    uint8_t kind;
    uint8_t a;
    uint8_t b;
    uint8_t spare;
    uint16_t value;
};

/* The answer to settings, and the station made of them. */
struct degvuurel_made {
    uint8_t answer;
    struct degvuurel_station station;
};

/* The answer to a report, and the station after it. */
struct degvuurel_taken {
    uint8_t answer;
    struct degvuurel_station station;
};

/* What each head shows: nine output bits, bit 0 first: VF, VI, NI, RF, R+, S1, S2, S3, S4. This struct, and three more, have one
 * word more in their names than in the library, since C++ warns of a function and a struct with one name. */
struct degvuurel_heads_shown {
    uint16_t outputs[2];
};

/* 0 where any track occupies the island, else 1, in island order. */
struct degvuurel_zones_shown {
    uint8_t digits[5];
};

/* Whether a track counts for the greatest risk. */
struct degvuurel_presence_shown {
    bool tracks[4];
};

/* A time. No distance is ever taken for one. */
struct degvuurel_seconds {
    uint16_t number;
};

/* A distance: 12,917 decimetres are 1291.7 m, and in whole metres that are not too near (12917 + 9) / 10. The field is not called
 * number, where metres stood before layout 2, so that a program that reads those does not compile. */
struct degvuurel_decimetres {
    uint32_t decimetres;
};

/* An answer, 0 or 8, and the distance, which is 0 where the answer is not. */
struct degvuurel_sited {
    uint8_t answer;
    struct degvuurel_decimetres distance;
};

/* What reading or stepping returns: its answer, the entry that it names, counted from 1, how many entries were read, and the
 * station after them. The entry is 0 unless the answer is 13. */
struct degvuurel_reading {
    uint8_t answer;
    size_t entry;
    size_t count;
    struct degvuurel_station station;
};

/* Where a row's entry lies in its register: from `at` on, so many bytes. Refused, no bytes from 0 on. */
struct degvuurel_entry_place {
    uint8_t answer;
    size_t at;
    size_t length;
};

/* What a row of a sheet shows: its entry's number, the five zone digits in island order, the nine output bits, VF first, and the
 * answer. */
struct degvuurel_row_fields {
    uint64_t entry;
    uint8_t zones[5];
    uint16_t outputs;
    uint8_t answer;
};

/* What the information desk is told of a station: its number, its aspect, its number of tracks, and five digits for each track in
 * island order, 0 occupied and 1 free. The digits of tracks that are not there are 0. */
struct degvuurel_message {
    uint16_t station;
    uint8_t aspect;
    uint8_t tracks;
    uint8_t digits[20];
};

/* The answer to a text, 0, 15 or 16, and its message. Look at the answer first: refused, the message is zeros and no tracks, and
 * its aspect 0 means nothing. */
struct degvuurel_received {
    uint8_t answer;
    struct degvuurel_message message;
};

/* The answer to a message, 0, 16 or 12, and the length of the text written, which is 0 where the answer is not. */
struct degvuurel_written {
    uint8_t answer;
    size_t length;
};

/* What recording a planner's text gives: its fault, or 0; the line that is at fault, counted from 1, or 0 where none is, as when
 * the text ends too early; and how many reports were entered. */
struct degvuurel_recorded {
    uint8_t fault;
    size_t line;
    size_t count;
};

/* What a line of a planner's text says: the word that it begins with, what is wrong with its words by themselves, or 0, and its
 * numbers, each in the field of a report that it fills: those of a report are the report, tracks stand in a, a timer in value. */
struct degvuurel_line {
    uint8_t name;
    uint8_t fault;
    struct degvuurel_report numbers;
};

/* The archive has these sizes. A compiler that is told to pack structs, or to count in 32 bits, would hand over other bytes: it
 * stops here, at an array of less than no bytes. */
#define DEGVUUREL_SIZE(name, bytes) typedef char degvuurel_size_of_##name[sizeof(struct degvuurel_##name) == (bytes) ? 1 : -1]
DEGVUUREL_SIZE(settings, 12);
DEGVUUREL_SIZE(island, 6);
DEGVUUREL_SIZE(track, 30);
DEGVUUREL_SIZE(station, 140);
DEGVUUREL_SIZE(report, 6);
DEGVUUREL_SIZE(made, 142);
DEGVUUREL_SIZE(taken, 142);
DEGVUUREL_SIZE(heads_shown, 4);
DEGVUUREL_SIZE(zones_shown, 5);
DEGVUUREL_SIZE(presence_shown, 4);
DEGVUUREL_SIZE(seconds, 2);
DEGVUUREL_SIZE(decimetres, 4);
DEGVUUREL_SIZE(sited, 8);
DEGVUUREL_SIZE(reading, 168);
DEGVUUREL_SIZE(entry_place, 24);
DEGVUUREL_SIZE(row_fields, 24);
DEGVUUREL_SIZE(message, 24);
DEGVUUREL_SIZE(received, 26);
DEGVUUREL_SIZE(written, 16);
DEGVUUREL_SIZE(recorded, 24);
DEGVUUREL_SIZE(line, 8);
#undef DEGVUUREL_SIZE

/* Its name ends in the number of the layout that this header is of. Whoever includes the header names it, so that an archive of
 * another layout does not link. */
uint8_t degvuurel_layout_2(void);
#if defined(__has_attribute)
#if __has_attribute(retain)
__attribute__((retain)) /* else a linker that is told to drop what nobody reads drops it */
#endif
#endif
__attribute__((used)) static uint8_t (*const degvuurel_layout_needed)(void) = degvuurel_layout_2;

/* A fresh station. Where the settings are refused with 8, one of the least settings. */
struct degvuurel_made degvuurel_make(struct degvuurel_settings settings);

/* Takes a report, or refuses it by 1 to 8 and returns the old station. */
struct degvuurel_taken degvuurel_take(struct degvuurel_station station, struct degvuurel_report report);

/* The number that a report is answered with, 0 to 8. */
uint8_t degvuurel_answer(struct degvuurel_station station, struct degvuurel_report report);

/* The aspect, 0 to 5. A station whose settings are outside their limits shows 5. */
uint8_t degvuurel_aspect(struct degvuurel_station station);

/* What each head shows. */
struct degvuurel_heads_shown degvuurel_heads(struct degvuurel_station station);

/* The five zone digits. */
struct degvuurel_zones_shown degvuurel_zones(struct degvuurel_station station);

/* Which tracks count for the greatest risk. */
struct degvuurel_presence_shown degvuurel_presence(struct degvuurel_station station);

/* The nine outputs of an aspect, DEGVUUREL_VF to DEGVUUREL_S4; a number above 5 gives 0. */
uint16_t degvuurel_outputs(uint8_t aspect);

/* What a head in this condition, DEGVUUREL_GREEN_FAILED to DEGVUUREL_COMMUNICATION_FAILED, shows of the outputs. */
uint16_t degvuurel_head(uint16_t outputs, uint16_t condition);

/* The advance distance, for a speed of 1 to 350 km/h and the time that the message takes, 0 to 60 s. */
struct degvuurel_sited degvuurel_advance(uint16_t speed, struct degvuurel_seconds message);

/* The warning distance, for a speed of 1 to 350 km/h and the number of tracks to cross, 1 to 4. */
struct degvuurel_sited degvuurel_warning(uint16_t speed, uint8_t tracks);

/* Writes the header of these settings. 8 or 12 where it is refused, and then nothing is written. */
uint8_t degvuurel_start(uint8_t *bytes, size_t length, struct degvuurel_settings settings);

/* Takes a report and enters it at entry k, counted from 0, in a register with room for it: the length is that of the room. A
 * report refused by 1 to 7 is entered too. With 9, 10, 8 or 12 it is not taken, and nothing is written. */
struct degvuurel_taken degvuurel_append(uint8_t *bytes, size_t length, size_t k, struct degvuurel_station station,
                                        struct degvuurel_report report);

/* Replays the whole register. From here on the length is that of exactly the filled bytes: 16, and 8 for each entry. */
struct degvuurel_reading degvuurel_read(const uint8_t *bytes, size_t length);

/* The station as it was after a row, from the entries up to it alone. Row 0 is the fresh station. */
struct degvuurel_reading degvuurel_step(const uint8_t *bytes, size_t length, size_t row);

/* What a browser of the register shows that moves to a row. A step's count is its row: the row it stands on afterwards. */
struct degvuurel_reading degvuurel_browse(const uint8_t *bytes, size_t length, size_t row);

/* What a browser shows that stands on a row and moves one forward. From the last row it is refused with 14. */
struct degvuurel_reading degvuurel_forward(const uint8_t *bytes, size_t length, size_t row);

/* What a browser shows that stands on a row and moves one back. From row 0 it is refused with 14. */
struct degvuurel_reading degvuurel_back(const uint8_t *bytes, size_t length, size_t row);

/* 0 where the row has an entry to hand back. */
uint8_t degvuurel_entry_answer(const uint8_t *bytes, size_t length, size_t row);

/* The row's eight bytes: where they lie in the register. */
struct degvuurel_entry_place degvuurel_entry(const uint8_t *bytes, size_t length, size_t row);

/* The settings of a register's header. Bytes that are missing count as 0. */
struct degvuurel_settings degvuurel_settings_in(const uint8_t *bytes, size_t length);

/* The report of an entry. Bytes that are missing count as 0, which is no kind of report. */
struct degvuurel_report degvuurel_report_in(const uint8_t *entry, size_t length);

/* Records a planner's text: writes the register that it means at the start of the register's DEGVUUREL_MOST_BYTES bytes, 16 and 8
 * for each report entered, and the line of each row into rows, which has DEGVUUREL_MOST places, row 1 first. What lies behind them
 * stays as it was; where something is wrong with the text, nothing is written at all. */
struct degvuurel_recorded degvuurel_record(const uint8_t *text, size_t length, uint8_t *bytes, size_t *rows);

/* What a line of a planner's text says, without its line feed. */
struct degvuurel_line degvuurel_line_in(const uint8_t *line, size_t length);

/* Writes what is printed of an input at the start of text, which has DEGVUUREL_SHEET bytes, and answers its length. The text is
 * not ended by a 0. */
size_t degvuurel_print(const uint8_t *input, size_t length, uint8_t *text);

/* Writes the title line at the start of out, and answers its length. Where it does not fit, nothing is written and the answer is
 * 0. */
size_t degvuurel_title_line(uint8_t *out, size_t length);

/* Writes a row's line, as degvuurel_title_line does. */
size_t degvuurel_row_line(uint8_t *out, size_t length, struct degvuurel_row_fields fields);

/* Writes the one line of a register that cannot be read, as degvuurel_title_line does. The entry is named where the answer is
 * 13. */
size_t degvuurel_refusal_line(uint8_t *out, size_t length, uint8_t answer, uint64_t entry);

/* What the information desk is told of a station with this number. Of one whose settings are outside their limits: aspect 5, and
 * four tracks of 0. */
struct degvuurel_message degvuurel_message_of(uint16_t number, struct degvuurel_station station);

/* Writes a message as one JSON object at the start of the bytes, gives its length, and touches no byte past it;
 * DEGVUUREL_MESSAGE bytes are always enough. 16 where the aspect is above 5, the tracks are not 1 to 4, a digit is above 1, or one
 * of a track that is not there is not 0; then 12 where the text does not fit. Refused, nothing is written. The text is not ended
 * by a 0. */
struct degvuurel_written degvuurel_write_message(struct degvuurel_message message, uint8_t *bytes, size_t length);

/* Reads a message from any RFC 8259 text in UTF-8 of at most DEGVUUREL_MESSAGE_READ bytes, with lists and objects at most 8 deep:
 * the first member of each of our names in the outermost object counts, names compared after escapes, and other members are
 * skipped. 15 or 16 where it is refused. */
struct degvuurel_received degvuurel_read_message(const uint8_t *text, size_t length);

#ifdef __cplusplus
}
#endif

#endif
