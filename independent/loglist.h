/* loglist.h: a second reader of the emptied log, written from the documents alone, to compare the proved one with. */
#ifndef INDEPENDENT_LOGLIST_H
#define INDEPENDENT_LOGLIST_H

#include "box.h"

enum {
    LOG_LIST_OLDER_MARK = 0x1EE1,                     /* that of the box's own records is 1E E2 */
    LOG_LIST_OLDER_RECORD = 12,                       /* of the older mark; those of 1E E2 are the box's own, BOX_LOG_RECORD */
    LOG_LIST_MOST = BOX_LOG_MOST,                     /* bytes of a log */
    LOG_LIST_LINE = 10 + 1 + 3 + 8 + 8 + 4 + 1,       /* the longest line: five fields, four spaces, its end */
    LOG_LIST_OLDER_LINE = LOG_LIST_LINE - 8 - 1,      /* one field less */
    LOG_LIST_ROOM = LOG_LIST_MOST / BOX_LOG_RECORD * LOG_LIST_LINE /* the longest text; one of the older mark is shorter */
};

_Static_assert(LOG_LIST_MOST / LOG_LIST_OLDER_RECORD * LOG_LIST_OLDER_LINE <= LOG_LIST_ROOM, "the longest text");

/*
 * Writes the text of a log of any length, or the text of its refusal, to the start of `text`, whose rest stays, and answers the
 * length of what it wrote. A `text` of less than LOG_LIST_ROOM bytes gets nothing, and the answer is 0.
 */
size_t log_list(const uint8_t *log, size_t length, uint8_t *text, size_t room);

/* What is told of a log of any length: 0 where it is listed, or the number of the refusal. */
unsigned log_list_refusal(const uint8_t *log, size_t length);

#endif
