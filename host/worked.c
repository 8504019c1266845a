/* Prints the six worked values of W. */
#include <stdio.h>

#include "raldvopt.h"

int main(void)
{
    static const uint32_t cases[][2] = {{0, 0}, {0, 4}, {1, 5}, {4, 6}, {6, 8}, {12, 20}};

    for (size_t i = 0; i < sizeof cases / sizeof cases[0]; i++)
        printf("W(%u,%u) = %u\n", cases[i][0], cases[i][1], cells_written(cases[i][0], cases[i][1]));
    return 0;
}
