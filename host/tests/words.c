/* words.c: what shell_number makes of each argument: a line of the number in decimal and of its two words in hex, or `no number`. */
#include "shell.h"

#include <inttypes.h>
#include <stdio.h>
#include <stdlib.h>

int main(int argc, char **argv)
{
    for (int i = 1; i < argc; i++) {
        uint64_t number = 0;
        if (shell_number(argv[i], &number))
            printf("%" PRIu64 " %08" PRIX64 " %08" PRIX64 "\n", number, number >> 32, number & UINT32_MAX);
        else
            puts(number == 0 ? "no number" : "no number, and one was stored");
    }
    return EXIT_SUCCESS;
}
