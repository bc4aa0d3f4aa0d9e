/* loglist_independent.c: the program loglist around the independent reader: a log as input, its text on standard output. */
#include "loglist.h"
#include "shell.h"

#include <stdlib.h>

static uint8_t log_bytes[LOG_LIST_MOST + 1], text[LOG_LIST_ROOM];

int main(int argc, char **argv)
{
    shell_start("loglist-independent", "[FILE]", 1, argc, argv);
    shell_next_input();
    /* One byte more than the longest log says that a file is too long: the rest of it is not waited for. */
    size_t length = shell_read_piece(log_bytes, sizeof log_bytes);
    shell_put(text, log_list(log_bytes, length, text, sizeof text));
    shell_flush();
    return EXIT_SUCCESS;
}
