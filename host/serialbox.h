/* serialbox.h: the parts of serialbox: what it keeps in files, and the serial line. */
#ifndef SERIALBOX_H
#define SERIALBOX_H

#include <stdbool.h>
#include <stddef.h>
#include <stdint.h>

/* Says on standard error what failed, with the reason that errno gives. */
void say_failed(const char *what, const char *name);

/* ---- the files (serialbox_files.c); false means that a message was given and the box must end */

struct saved_file {
    const char *name;           /* as the caller gave it */
    char *path, *next, *folder; /* the file, the one that is to take its place (FILE.NUMBER.new), and the folder of both */
    bool there;                 /* false: no file yet, and the saved copy is all zero */
};

/* Reads the saved copy; all zero where there is no file. A file of another length is an error and stays as it is. */
bool saved_open(struct saved_file *file, const char *name, uint8_t *saved, size_t length);

/* Says on standard error, in one line, which lines of the saved copy are Bad, or that there is no file; nothing where none is Bad. */
void saved_tell(const struct saved_file *file, const uint8_t *saved, size_t length);

/* Replaces the file as a whole: a crash at any moment leaves the old one or the new one. */
bool saved_write(struct saved_file *file, const uint8_t *saved, size_t length);

struct log_file {
    const char *path;
    size_t record; /* the bytes of one record */
    int descriptor;
};

/* Opens the log file for records of `record` bytes each, for this box alone: a regular file of whole records under the mark 1E E2, or
 * an empty one. Any other is left as it is: a list of it goes by its first mark, so nothing appended to it could be read. */
bool log_open(struct log_file *file, const char *path, size_t record);

/* Appends what an emptying gave. Where that fails, the file is cut back to what it held and the bytes are shown on standard
 * error: the box has forgotten them by then. */
bool log_append(const struct log_file *file, const uint8_t *bytes, size_t count);

/* ---- the serial line (serialbox_line.c) */

enum { LINE_QUEUE = 65536 };

struct line {
    int master, slave; /* the slave stays open, so that programs may come and go */
    char name[64];
    uint8_t queue[LINE_QUEUE]; /* replies that the line has not taken yet */
    size_t queued;
};

/* Opens a pseudo-terminal that passes every byte untouched. */
bool line_open(struct line *line);

/* Room for the replies to come. */
size_t line_room(const struct line *line);

/* Puts a reply behind those that wait. The caller has seen that there is room. */
void line_put(struct line *line, const uint8_t *bytes, size_t count);

/* Gives the line what it takes now, and does not wait for it to take more. */
bool line_flush(struct line *line);

/* Takes at most `most` bytes that have arrived, without waiting; false at an error. */
bool line_read(struct line *line, uint8_t *bytes, size_t most, size_t *count);

/* A symbolic link to the pseudo-terminal, in place of an older link. */
bool link_make(const char *path, const char *name);

/* Removes the link if it is still this box's. */
void link_remove(const char *path, const char *name);

#endif
