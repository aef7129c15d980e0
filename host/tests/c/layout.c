/* Prints, for each struct of the header, its size, and for each field where it starts and how many bytes it has. */
#include "degvuurel.h"

#include <stdio.h>

#define WHOLE(name) printf("%s %lu\n", #name, (unsigned long)sizeof(struct degvuurel_##name))
#define FIELD(name, field)                                                                   \
    printf("%s.%s %lu %lu\n", #name, #field, (unsigned long)offsetof(struct degvuurel_##name, field), \
           (unsigned long)sizeof(((struct degvuurel_##name *)0)->field))

static void of_a_station(void) {
    WHOLE(settings);
    FIELD(settings, tracks);
    FIELD(settings, t1);
    FIELD(settings, t2);
    FIELD(settings, t3);
    FIELD(settings, t4);
    FIELD(settings, t5);
    WHOLE(island);
    FIELD(island, occupied);
    FIELD(island, leaving);
    FIELD(island, failed);
    FIELD(island, age);
    WHOLE(track);
    FIELD(track, islands);
    WHOLE(station);
    FIELD(station, settings);
    FIELD(station, tracks);
    FIELD(station, hold);
    FIELD(station, fault);
    FIELD(station, conditions);
}

static void of_a_report(void) {
    WHOLE(report);
    FIELD(report, kind);
    FIELD(report, a);
    FIELD(report, b);
    FIELD(report, spare);
    FIELD(report, value);
    WHOLE(made);
    FIELD(made, answer);
    FIELD(made, station);
    WHOLE(taken);
    FIELD(taken, answer);
    FIELD(taken, station);
}

static void of_what_is_shown(void) {
    WHOLE(heads_shown);
    FIELD(heads_shown, outputs);
    WHOLE(zones_shown);
    FIELD(zones_shown, digits);
    WHOLE(presence_shown);
    FIELD(presence_shown, tracks);
    WHOLE(seconds);
    FIELD(seconds, number);
    WHOLE(decimetres);
    FIELD(decimetres, decimetres);
    WHOLE(sited);
    FIELD(sited, answer);
    FIELD(sited, distance);
}

static void of_a_register(void) {
    WHOLE(reading);
    FIELD(reading, answer);
    FIELD(reading, entry);
    FIELD(reading, count);
    FIELD(reading, station);
    WHOLE(entry_place);
    FIELD(entry_place, answer);
    FIELD(entry_place, at);
    FIELD(entry_place, length);
    WHOLE(row_fields);
    FIELD(row_fields, entry);
    FIELD(row_fields, zones);
    FIELD(row_fields, outputs);
    FIELD(row_fields, answer);
}

static void of_a_message(void) {
    WHOLE(message);
    FIELD(message, station);
    FIELD(message, aspect);
    FIELD(message, tracks);
    FIELD(message, digits);
    WHOLE(received);
    FIELD(received, answer);
    FIELD(received, message);
    WHOLE(written);
    FIELD(written, answer);
    FIELD(written, length);
}

static void of_a_plan(void) {
    WHOLE(recorded);
    FIELD(recorded, fault);
    FIELD(recorded, line);
    FIELD(recorded, count);
    WHOLE(line);
    FIELD(line, name);
    FIELD(line, fault);
    FIELD(line, numbers);
}

int main(void) {
    of_a_station();
    of_a_report();
    of_what_is_shown();
    of_a_register();
    of_a_message();
    of_a_plan();
    return 0;
}
