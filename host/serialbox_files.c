/* serialbox_files.c: the saved copy and the log of serialbox, in files. */
#define _GNU_SOURCE
#include "serialbox.h"

#include <errno.h>
#include <fcntl.h>
#include <libgen.h>
#include <stdio.h>
#include <stdlib.h>
#include <string.h>
#include <sys/file.h>
#include <sys/stat.h>
#include <unistd.h>

void say_failed(const char *what, const char *name) {
    fprintf(stderr, "serialbox: %s %s: %s\n", what, name, strerror(errno));
}

/* Writes all of it; an interrupted or partial write goes on. */
static bool write_all(int descriptor, const uint8_t *bytes, size_t count) {
    while (count > 0) {
        ssize_t written = write(descriptor, bytes, count);
        if (written < 0 && errno == EINTR)
            continue;
        if (written < 0)
            return false;
        bytes += written;
        count -= (size_t)written;
    }
    return true;
}

/* Reads up to `most` bytes, fewer only where the file ends. */
static bool read_all(int descriptor, uint8_t *bytes, size_t most, size_t *count) {
    *count = 0;
    while (*count < most) {
        ssize_t got = read(descriptor, bytes + *count, most - *count);
        if (got < 0 && errno == EINTR)
            continue;
        if (got < 0)
            return false;
        if (got == 0)
            break;
        *count += (size_t)got;
    }
    return true;
}

static char *folder_of(const char *path) {
    char *copy = strdup(path), *folder = copy == NULL ? NULL : strdup(dirname(copy));
    free(copy);
    return folder;
}

/* Puts the names in a folder on the disk. A file system that cannot do that for a folder says EINVAL; it must keep them itself. */
static bool sync_folder(const char *folder) {
    int descriptor = open(folder, O_RDONLY | O_DIRECTORY | O_CLOEXEC);
    bool done = descriptor >= 0 && (fsync(descriptor) == 0 || errno == EINVAL);
    if (descriptor >= 0)
        close(descriptor);
    return done;
}

/* ---- the saved copy */

/* The names of the file. A link is followed now: taking its place would leave the file that it points to as it was. The file that
 * takes the place has the number of this process in its name: two boxes with one saved copy never write into one file. */
static bool name_files(struct saved_file *file, const char *name) {
    file->name = name;
    file->path = realpath(name, NULL);
    if (file->path == NULL && errno == ENOENT && name[0] != 0 && name[strlen(name) - 1] != '/')
        file->path = strdup(name);
    if (file->path == NULL || asprintf(&file->next, "%s.%ld.new", file->path, (long)getpid()) < 0 ||
        (file->folder = folder_of(file->path)) == NULL) {
        say_failed("cannot find", name);
        return false;
    }
    if (access(file->folder, W_OK | X_OK) == 0)
        return true;
    say_failed("cannot keep the saved copy in", file->folder);
    return false;
}

/* Opened without waiting: a pipe that nobody writes is a file that is too short. */
bool saved_open(struct saved_file *file, const char *name, uint8_t *saved, size_t length) {
    uint8_t one_more;
    size_t count, more = 0;
    memset(saved, 0, length);
    if (!name_files(file, name))
        return false;
    int descriptor = open(file->path, O_RDONLY | O_NONBLOCK | O_CLOEXEC);
    file->there = descriptor >= 0 || errno != ENOENT;
    if (!file->there)
        return true;
    if (descriptor < 0 || !read_all(descriptor, saved, length, &count) || !read_all(descriptor, &one_more, 1, &more)) {
        say_failed("cannot read the saved copy", name);
        return false;
    }
    close(descriptor);
    if (count == length && more == 0)
        return true;
    fprintf(stderr, "serialbox: the saved copy %s is %s than %zu bytes; it is left as it is\n", name, more ? "longer" : "shorter",
            length);
    return false;
}

enum { LINE_BYTES = 8 };

/* Document 01: "A line is 8 bytes. State: 53 00 X4 X3 X2 X1 and the time, high byte first. For: 46, counter, count high byte first,
 * four zeros. Next: 4E, counter, six zeros. Times and counts are at most 9999." A counter is 1-4. Document 02, item 4: "Reading eight
 * bytes now answers State, For, Next or Bad", which is what is none of the three. */
static bool is_bad(const uint8_t *line) {
    static const uint8_t zeros[6] = {0};
    const int most = 9999;
    bool counter = line[1] >= 1 && line[1] <= 4;
    switch (line[0]) {
    case 0x53: return line[1] != 0 || (line[6] << 8 | line[7]) > most;
    case 0x46: return !counter || (line[2] << 8 | line[3]) > most || memcmp(line + 4, zeros, 4) != 0;
    case 0x4E: return !counter || memcmp(line + 2, zeros, 6) != 0;
    default: return true;
    }
}

/* The first line from `line` on that is Bad, or that is not; the number of lines where there is none. */
static size_t find(bool bad, const uint8_t *saved, size_t lines, size_t line) {
    while (line < lines && is_bad(saved + LINE_BYTES * line) != bad)
        line++;
    return line;
}

/* The Bad lines as text, consecutive ones joined: 012, 014-016. Each adds at most five characters. */
static void list_bad(const uint8_t *saved, size_t lines, char *text) {
    const char *between = "";
    *text = 0;
    for (size_t end, first = find(true, saved, lines, 0); first < lines; first = find(true, saved, lines, end)) {
        end = find(false, saved, lines, first);
        text += sprintf(text, "%s%03zu", between, first);
        if (end - first > 1)
            text += sprintf(text, "-%03zu", end - 1);
        between = ", ";
    }
}

/* A line of text in one write, so that no other program's comes into it. */
void saved_tell(const struct saved_file *file, const uint8_t *saved, size_t length) {
    size_t lines = length / LINE_BYTES;
    char bad[5 * lines + 1];
    list_bad(saved, lines, bad);
    if (!file->there)
        fprintf(stderr, "serialbox: no saved copy in %s: a line is Bad until it is written, and a program that comes to a Bad line "
                        "stops there with event 014\n", file->name);
    else if (bad[0] != 0)
        fprintf(stderr, "serialbox: %s has Bad lines, where a program stops with event 014: %s\n", file->name, bad);
}

static bool write_next(const struct saved_file *file, const uint8_t *saved, size_t length) {
    int descriptor = open(file->next, O_WRONLY | O_CREAT | O_TRUNC | O_CLOEXEC, 0666);
    bool written = descriptor >= 0 && write_all(descriptor, saved, length) && fsync(descriptor) == 0;
    return (descriptor < 0 || close(descriptor) == 0) && written;
}

/* The bytes are on the disk before the name is theirs, and the name before anyone is told. */
bool saved_write(struct saved_file *file, const uint8_t *saved, size_t length) {
    if (write_next(file, saved, length) && rename(file->next, file->path) == 0 && sync_folder(file->folder)) {
        file->there = true;
        return true;
    }
    say_failed("cannot write the saved copy", file->path);
    unlink(file->next);
    return false;
}

/* ---- the log */

enum { MARK = 0x1EE2, OLDER_MARK = 0x1EE1 }; /* document 02, item 8: of records of 16 bytes, and of 12 as they were before */

static bool left_as_it_is(const char *path, const char *why) {
    fprintf(stderr, "serialbox: the log file %s %s; it is left as it is\n", path, why);
    return false;
}

/* True if records can be appended: the file is empty, or has whole ones with the mark in front. */
static bool takes_records(const struct log_file *file) {
    struct stat status;
    uint8_t mark[2] = {0, 0};
    if (fstat(file->descriptor, &status) != 0 || !S_ISREG(status.st_mode))
        return left_as_it_is(file->path, "is no regular file");
    if (status.st_size == 0)
        return true;
    if (pread(file->descriptor, mark, sizeof mark, 0) < 0) {
        say_failed("cannot read the log file", file->path);
        return false;
    }
    if ((mark[0] << 8 | mark[1]) == OLDER_MARK)
        return left_as_it_is(file->path, "has records of the older mark 1E E1, of 12 bytes, and this box appends records of 16 bytes "
                                         "under the mark 1E E2: move it away, or name another by --log");
    if ((mark[0] << 8 | mark[1]) != MARK)
        return left_as_it_is(file->path, "does not begin with 1E E2, the mark of a record");
    if ((size_t)status.st_size % file->record != 0)
        return left_as_it_is(file->path, "is not a whole number of records of 16 bytes long");
    return true;
}

/* Opened without waiting, so that a pipe that nobody reads is an error like any other file that cannot keep records. It is looked at
 * when no other box can be writing to it. */
bool log_open(struct log_file *file, const char *path, size_t record) {
    file->path = path;
    file->record = record;
    file->descriptor = open(path, O_RDWR | O_APPEND | O_CREAT | O_NONBLOCK | O_NOCTTY | O_CLOEXEC, 0666);
    if (file->descriptor < 0) {
        say_failed("cannot open the log file", path);
        return false;
    }
    if (flock(file->descriptor, LOCK_EX | LOCK_NB) != 0) {
        say_failed("another box may be using the log file", path);
        return false;
    }
    if (!takes_records(file))
        return false;
    char *folder = folder_of(path); /* the file may be new */
    bool done = folder != NULL && sync_folder(folder);
    if (!done)
        say_failed("cannot keep the log file", path);
    free(folder);
    return done;
}

/* All of it or nothing: a part of a record would shift all that comes after it. A file that was removed meanwhile would take the
 * bytes too, for nobody. */
static bool append_whole(const struct log_file *file, const uint8_t *bytes, size_t count) {
    struct stat before;
    if (fstat(file->descriptor, &before) != 0)
        return false;
    if (before.st_nlink == 0) {
        errno = ENOENT;
        return false;
    }
    if (write_all(file->descriptor, bytes, count) && fsync(file->descriptor) == 0)
        return true;
    int reason = errno;
    if (ftruncate(file->descriptor, before.st_size) != 0)
        say_failed("part of a record may be left at the end of", file->path);
    errno = reason;
    return false;
}

bool log_append(const struct log_file *file, const uint8_t *bytes, size_t count) {
    if (count == 0 || append_whole(file, bytes, count))
        return true;
    say_failed("cannot write the log file", file->path);
    fprintf(stderr, "serialbox: these %zu bytes of the log are not in the file:\n", count);
    for (size_t i = 0; i < count; i++)
        fprintf(stderr, "%02X%s", bytes[i], (i + 1) % file->record == 0 || i + 1 == count ? "\n" : "");
    return false;
}
