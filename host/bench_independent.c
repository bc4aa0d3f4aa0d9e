/*
 * bench_independent.c: the program bench around the independent box: byte 1 is a tick, 2 and 3 are buttons 1 and 2, every other byte
 * goes to the wire, and the replies go out before more input is waited for.
 */
#include "box.h"
#include "shell.h"

#include <stdio.h>
#include <stdlib.h>

enum { PROGRAM = 1600, LOG = BOX_LOG_LEAST, REPLY = 16, BLOCK = 4096 };

static uint8_t program[PROGRAM], saved[PROGRAM], log_area[LOG];

/* One byte of input, and what it is answered. */
static void take(struct box *box, uint8_t byte)
{
    uint8_t reply[REPLY];
    if (byte == 1) {
        box_tick(box, program, PROGRAM, log_area, LOG);
    } else if (byte == 2 || byte == 3) {
        box_press(box, byte - 1u, program, PROGRAM, log_area, LOG);
    } else {
        struct box_said said = box_byte(box, byte, program, PROGRAM, saved, PROGRAM, log_area, LOG, reply, REPLY);
        if (said.written > 0) /* most bytes have no reply */
            shell_put(reply, said.written);
    }
}

int main(int argc, char **argv)
{
    struct box *box = malloc(box_size());
    uint8_t block[BLOCK];
    size_t count;
    shell_start("bench-independent", "[FILE]", 1, argc, argv);
    if (box == NULL) {
        perror("bench-independent: no memory");
        return EXIT_FAILURE;
    }
    shell_next_input();
    box_power_on(box, program, PROGRAM, saved, PROGRAM, log_area, LOG);
    while ((count = shell_read(block, sizeof block)) > 0)
        for (size_t i = 0; i < count; i++)
            take(box, block[i]);
    shell_flush();
    return EXIT_SUCCESS;
}
