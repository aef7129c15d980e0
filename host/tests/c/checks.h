/* What the programs beside it compare with. A line on standard error for each difference. */
#ifndef CHECKS_H
#define CHECKS_H

#include "degvuurel.h"

/* Where a number is not the one expected. */
void same(int line, const char *what, uint64_t found, uint64_t expected);

/* Field by field: the bytes between fields are nobody's. */
void same_settings(int line, struct degvuurel_settings found, struct degvuurel_settings expected);
void same_report(int line, struct degvuurel_report found, struct degvuurel_report expected);
void same_station(int line, struct degvuurel_station found, struct degvuurel_station expected);

/* Whether the text is the one expected, byte by byte. */
void same_text(int line, const uint8_t *found, size_t length, const char *expected);

#define SAME(found, expected) same(__LINE__, #found, (uint64_t)(found), (uint64_t)(expected))
#define SAME_SETTINGS(found, expected) same_settings(__LINE__, found, expected)
#define SAME_REPORT(found, expected) same_report(__LINE__, found, expected)
#define SAME_STATION(found, expected) same_station(__LINE__, found, expected)
#define SAME_TEXT(found, length, expected) same_text(__LINE__, found, length, expected)

/* Settings and reports, each field filled by its name: a list in braces would go by the order of the fields, right or wrong. */
struct degvuurel_settings settings_of(uint8_t tracks, uint16_t t1, uint16_t t2, uint16_t t3, uint16_t t4, uint16_t t5);
struct degvuurel_report report_of(uint8_t kind, uint8_t a, uint8_t b, uint16_t value);

/* The station after an accepted report. */
struct degvuurel_station after(int line, struct degvuurel_station station, uint8_t kind, uint8_t a, uint8_t b, uint16_t value);

#define AFTER(station, kind, a, b, value) after(__LINE__, station, kind, a, b, value)

/* A fresh station that was normalised. */
struct degvuurel_station normal(struct degvuurel_settings settings);

/* The parts of the program. */
void check_stations(void);
void check_structs(void);
void check_registers(void);
void check_plans(void);
void check_screens(void);

#endif
