/* The library's numbers in words, for whoever shows them to a person: answers, aspects, outputs, failed parts of a head, and
 * what is wrong with a planner's text. The words are those of the command and of the package in Rust. For C99 and later, and
 * C++11 and later; nothing of it is in the archive. */
#ifndef DEGVUUREL_WORDS_H
#define DEGVUUREL_WORDS_H

#include "degvuurel.h"

/* The word of a number in a table, or what is said of a number that is not in it. */
static inline const char *degvuurel_word(const char *const *words, size_t count, size_t number) {
    return number < count ? words[number] : "no such number";
}

/* An answer, 0 to 16. */
static inline const char *degvuurel_answer_words(uint8_t answer) {
    static const char *const words[] = {
        "done",
        "no such kind of report",
        "a field of the report is not as its kind has it",
        "no such track",
        "no such island",
        "no such head",
        "occupied, free, failed or not failed already",
        "an island is occupied or a detector failed",
        "a setting or siting number is outside its limits, or the header's settings are not the station's",
        "not a register",
        "a register of another version",
        "the last entry is cut",
        "no room, or too many entries",
        "the entry's answer or aspect is not what the replay gives",
        "no such row",
        "not RFC 8259 text, too long or too deep",
        "a member of the message is missing, of another form or outside its range",
    };
    return degvuurel_word(words, sizeof words / sizeof words[0], answer);
}

/* An aspect, 0 to 5. */
static inline const char *degvuurel_aspect_words(uint8_t aspect) {
    static const char *const words[] = {
        "permitted", "clearing", "forbidden", "greatest risk", "trains in the surroundings", "out of service",
    };
    return degvuurel_word(words, sizeof words / sizeof words[0], aspect);
}

/* Which bit a name is, or 16 where it is none of them or more than one. */
static inline size_t degvuurel_bit(uint16_t name) {
    size_t bit = 0;
    while (bit < 16 && name != 1 << bit) {
        bit++;
    }
    return bit;
}

/* One output, DEGVUUREL_VF to DEGVUUREL_S4. */
static inline const char *degvuurel_output_words(uint16_t output) {
    static const char *const words[] = {"VF", "VI", "NI", "RF", "R+", "S1", "S2", "S3", "S4"};
    return degvuurel_word(words, sizeof words / sizeof words[0], degvuurel_bit(output));
}

/* One part of a head that has failed, DEGVUUREL_GREEN_FAILED to DEGVUUREL_COMMUNICATION_FAILED. */
static inline const char *degvuurel_part_words(uint16_t part) {
    static const char *const words[] = {
        "green", "orange", "red", "board", "S1", "S2", "S3", "S4", "power", "communication",
    };
    return degvuurel_word(words, sizeof words / sizeof words[0], degvuurel_bit(part));
}

/* What is wrong with a planner's text, 0 to 11. */
static inline const char *degvuurel_fault_words(uint8_t fault) {
    static const char *const words[] = {
        "understood",
        "not a setting, and not a kind of report",
        "a number is missing",
        "a word too many",
        "not a number from 0 to 255",
        "not a number from 0 to 65535",
        "a setting after the first report",
        "set already",
        "a report before all six settings (tracks, t1, t2, t3, t4, t5)",
        "with this the settings are outside their limits",
        "more than 8190 reports",
        "the text ends before all six settings (tracks, t1, t2, t3, t4, t5)",
    };
    return degvuurel_word(words, sizeof words / sizeof words[0], fault);
}

#endif
