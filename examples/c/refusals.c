/* The refusals in words, one a line after its number: examples/run compares them with docs/REFUSALS.md. */
#include "vessel_ring.h"

#include <stdio.h>
#include <string.h>

int main(void)
{
    const char *none = vessel_refusal_text(255);
    int number;
    for (number = 1; number < 256; number++)
        if (strcmp(vessel_refusal_text((uint8_t)number), none) != 0)
            printf("%d %s\n", number, vessel_refusal_text((uint8_t)number));
    return 0;
}
