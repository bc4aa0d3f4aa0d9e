/* serialbox_line.c: the serial line of serialbox, a pseudo-terminal. */
#define _GNU_SOURCE
#include "serialbox.h"

#include <errno.h>
#include <fcntl.h>
#include <stdio.h>
#include <stdlib.h>
#include <string.h>
#include <sys/stat.h>
#include <termios.h>
#include <unistd.h>

/* Bytes pass as they are, both ways: no echo, no line editing, no signals, no change of 13. */
static bool make_raw(int descriptor) {
    struct termios settings;
    if (tcgetattr(descriptor, &settings) != 0)
        return false;
    cfmakeraw(&settings);
    return tcsetattr(descriptor, TCSANOW, &settings) == 0;
}

/* The line must never make the box wait, so the master does not block. While no one has the slave open, reading the master is an
 * error; so the box has it open. */
bool line_open(struct line *line) {
    line->queued = 0;
    line->master = posix_openpt(O_RDWR | O_NOCTTY | O_CLOEXEC);
    if (line->master >= 0 && grantpt(line->master) == 0 && unlockpt(line->master) == 0 &&
        ptsname_r(line->master, line->name, sizeof line->name) == 0 && fcntl(line->master, F_SETFL, O_RDWR | O_NONBLOCK) == 0 &&
        (line->slave = open(line->name, O_RDWR | O_NOCTTY | O_CLOEXEC)) >= 0 && make_raw(line->slave))
        return true;
    say_failed("cannot open", "a pseudo-terminal");
    return false;
}

size_t line_room(const struct line *line) {
    return sizeof line->queue - line->queued;
}

void line_put(struct line *line, const uint8_t *bytes, size_t count) {
    memcpy(line->queue + line->queued, bytes, count);
    line->queued += count;
}

bool line_flush(struct line *line) {
    size_t taken = 0;
    while (taken < line->queued) {
        ssize_t written = write(line->master, line->queue + taken, line->queued - taken);
        if (written < 0 && errno == EINTR)
            continue;
        if (written < 0 && errno != EAGAIN) {
            say_failed("cannot write to", line->name);
            return false;
        }
        if (written <= 0)
            break;
        taken += (size_t)written;
    }
    line->queued -= taken;
    memmove(line->queue, line->queue + taken, line->queued);
    return true;
}

bool line_read(struct line *line, uint8_t *bytes, size_t most, size_t *count) {
    ssize_t got = read(line->master, bytes, most);
    *count = got > 0 ? (size_t)got : 0;
    if (got >= 0 || errno == EAGAIN || errno == EINTR)
        return true;
    say_failed("cannot read from", line->name);
    return false;
}

bool link_make(const char *path, const char *name) {
    struct stat status;
    if (lstat(path, &status) == 0 && S_ISLNK(status.st_mode))
        unlink(path); /* of a box that did not end cleanly; anything but a link makes the next step fail */
    if (symlink(name, path) == 0)
        return true;
    say_failed("cannot make the link", path);
    return false;
}

void link_remove(const char *path, const char *name) {
    char target[64];
    ssize_t length = readlink(path, target, sizeof target);
    if (length == (ssize_t)strlen(name) && memcmp(target, name, (size_t)length) == 0)
        unlink(path);
}
