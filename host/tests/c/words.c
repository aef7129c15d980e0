/* Prints the words of each number that has some, and of one more; of outputs and failed parts, those of each bit. */
#include "degvuurel_words.h"

#include <stdio.h>

int main(void) {
    uint8_t number;
    for (number = 0; number <= 17; number++) {
        printf("answer %d: %s\n", number, degvuurel_answer_words(number));
    }
    for (number = 0; number <= 6; number++) {
        printf("aspect %d: %s\n", number, degvuurel_aspect_words(number));
    }
    for (number = 0; number <= 15; number++) {
        printf("output %d: %s\n", number, degvuurel_output_words((uint16_t)(1 << number)));
        printf("part %d: %s\n", number, degvuurel_part_words((uint16_t)(1 << number)));
    }
    printf("none: %s, %s\n", degvuurel_output_words(0), degvuurel_part_words(0));
    printf("two: %s\n", degvuurel_output_words(DEGVUUREL_RF | DEGVUUREL_S2));
    for (number = 0; number <= 12; number++) {
        printf("fault %d: %s\n", number, degvuurel_fault_words(number));
    }
    return 0;
}
