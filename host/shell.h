/*
 * shell.h: what the independent programs share as programs: their arguments, their input from files or from standard input, their
 * gathered output, and their messages. A function that cannot do what it says tells why on standard error, the program's name before
 * each line, and ends the program: with status 2 where the call is wrong, with status 1 where a file or a stream fails.
 */
#ifndef SHELL_H
#define SHELL_H

#include <stdbool.h>
#include <stddef.h>
#include <stdint.h>

enum { SHELL_ANY_NUMBER = INT32_MAX }; /* of files; a call cannot have as many */

/*
 * Comes first. Looks at the arguments from left to right, before anything is read or written: each is a FILE, no option is known, and
 * there are at most `most` of them. The first that is wrong is told with how to call the program, which is its name and `arguments`.
 */
void shell_start(const char *name, const char *arguments, int most, int argc, char **argv);

/*
 * Comes behind shell_start, which counts these too, where the first `count` arguments are numbers and no FILEs. They are looked at from
 * left to right, and the first that is no number is told likewise. A number that is not given stays what it was.
 */
void shell_numbers(uint64_t *numbers, int count);

/*
 * Goes on to the next input: the FILEs in their order, each opened when its turn comes, `-` for standard input, which is also the only
 * input where no FILE is named. False where there is no other.
 */
bool shell_next_input(void);

/* Up to `most` bytes of the input, as soon as there are any, and 0 where it has ended. */
size_t shell_read(void *to, size_t most);

/* The next `count` bytes of the input, or what is left of it where it ends before. */
size_t shell_read_piece(void *to, size_t count);

/*
 * Bytes for standard output. They are gathered in a block, which goes out when the next bytes do not fit, before a read that would have
 * to wait, before a file is opened, before a message, and by shell_flush, without which the last ones are lost.
 */
void shell_put(const void *bytes, size_t count);
void shell_flush(void);

/*
 * Ends the program, with status 1, where what was read is no input of its: tells the line of the input and what is wrong there, and behind
 * that how it is written. What was gathered is lost.
 */
_Noreturn void shell_wrong_line(uint64_t line, const char *what, const char *how);

/*
 * Ends the program, with status 1, where the input is refused: writes E and three digits alone, and tells which input it is and with what
 * number it is refused, `why` behind that. What was gathered goes out before.
 */
_Noreturn void shell_refuse_input(unsigned refusal, const char *why);

/*
 * An argument as a decimal number: one digit or more, and nothing else. Any number of them: what is above 18,446,744,073,709,551,615 is
 * that number, which so means "or more". False, and *number as it was, where the word is no number.
 */
bool shell_number(const char *word, uint64_t *number);

#endif
