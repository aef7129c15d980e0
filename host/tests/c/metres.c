/* A program written for metres, which stood in a field called number before layout 2. It must not compile. */
#include "degvuurel.h"

int main(void) {
    return degvuurel_warning(155, 2).distance.number;
}
