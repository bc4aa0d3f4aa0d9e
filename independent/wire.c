/* wire.c: the wire byte, the commands and the variables (01, "The wire", "Variables"). */
#include <string.h>

#include "internal.h"

enum {
    V_STATUS = 201,
    V_OUTPUTS_HIGH = 203,
    V_OUTPUTS_LOW = 206,
    V_PARAMETER_2 = 208,
    V_PARAMETER = 209,
    V_SPECIAL = 210,
    V_LINE = 211,
    V_EVENT = 212,
    V_COUNTER_1 = 213,
    V_COUNTER_4 = 216
};

enum { NO_NUMBER = 0xFFFF }; /* not in its format; above every number that is */

struct command {
    bool write;
    unsigned address;
    const uint8_t *data; /* what follows the address */
    unsigned length;
};

/* ---- numbers: h two hex digits, d three decimal digits, 2d four ---- */

static unsigned decimal(const uint8_t *text, unsigned digits)
{
    unsigned value = 0;

    for (unsigned i = 0; i < digits; i++) {
        if (text[i] < '0' || text[i] > '9')
            return NO_NUMBER;
        value = value * 10 + (text[i] - (unsigned)'0');
    }
    return value;
}

static unsigned hex_digit(uint8_t character)
{
    if (character >= '0' && character <= '9')
        return character - (unsigned)'0';
    if (character >= 'A' && character <= 'F')
        return character - (unsigned)'A' + 10;
    return NO_NUMBER;
}

static unsigned hex(const uint8_t *text)
{
    const unsigned high = hex_digit(text[0]);
    const unsigned low = hex_digit(text[1]);

    return high == NO_NUMBER || low == NO_NUMBER ? NO_NUMBER : high << 4 | low;
}

static uint8_t *put_decimal(uint8_t *to, unsigned value, unsigned digits)
{
    for (unsigned i = digits; i-- > 0; value /= 10)
        to[i] = (uint8_t)('0' + value % 10);
    return to + digits;
}

static uint8_t *put_hex(uint8_t *to, unsigned value)
{
    static const char digits[] = "0123456789ABCDEF";

    to[0] = (uint8_t)digits[value >> 4 & 15];
    to[1] = (uint8_t)digits[value & 15];
    return to + 2;
}

/* ---- reading ---- */

/* `S 00 X4 X3 X2 X1 TTTT`, `F C XXXX`, `N C`. A Bad line has no wire form and does not come here. */
static uint8_t *put_line(uint8_t *to, const uint8_t *bytes)
{
    const struct line line = box_read_line(bytes);

    if (line.kind == LINE_STATE) {
        *to++ = 'S';
        to = put_hex(to, 0);
        for (unsigned shift = 32; shift > 0; shift -= 8)
            to = put_hex(to, line.outputs >> (shift - 8));
        return put_decimal(to, line.number, 4);
    }
    *to++ = line.kind == LINE_FOR ? 'F' : 'N';
    *to++ = (uint8_t)('1' + line.counter);
    return line.kind == LINE_FOR ? put_decimal(to, line.number, 4) : to;
}

/* Which bits of the output word a variable of 203-206 is: 203 the highest eight. */
static unsigned output_shift(unsigned address)
{
    return 8 * (V_OUTPUTS_LOW - address);
}

/* D7 unread event, D1 running (also when paused), D0 paused. */
static unsigned status(const struct box *box)
{
    return (unsigned)box->unread << 7 | (unsigned)(box->mode != STOPPED) << 1 | (unsigned)(box->mode == PAUSED);
}

static uint8_t *put_variable(struct box *box, unsigned address, const uint8_t *program, uint8_t *to)
{
    if (address < LINES)
        return put_line(to, program + address * LINE_BYTES);
    if (address >= V_OUTPUTS_HIGH && address <= V_OUTPUTS_LOW)
        return put_hex(to, box->outputs >> output_shift(address));
    if (address >= V_COUNTER_1)
        return put_decimal(to, box->counter[address - V_COUNTER_1], 4);
    switch (address) {
    case SINGLE:
        return put_line(to, box->single);
    case V_STATUS:
        return put_hex(to, status(box));
    case V_PARAMETER_2:
        return put_decimal(to, 0, 3);
    case V_PARAMETER:
        return put_decimal(to, box->parameter, 3);
    case V_SPECIAL:
        return put_decimal(to, box->special, 3);
    case V_LINE:
        return put_decimal(to, box->line, 3);
    case V_EVENT: /* reading it clears code and D7 */
        to = put_decimal(to, box->event, 3);
        box->event = 0;
        box->unread = false;
        return to;
    default: /* 202 and 207 */
        return put_hex(to, 0);
    }
}

/* Of the program alone: what 200 holds is never Bad. */
static bool names_bad_line(unsigned address, const uint8_t *program)
{
    return address < LINES && box_read_line(program + address * LINE_BYTES).kind == LINE_BAD;
}

/* 02, item 4: "reading a Bad line over the wire answers E024, after the length check". 0 where the variable can be shown. */
static unsigned cannot_read(const struct command *command, const uint8_t *program)
{
#if DAMAGE == 28
    if (names_bad_line(command->address, program))
        return E_BAD_LINE;
#endif
    if (command->length != 0)
        return E_FORM;
    return names_bad_line(command->address, program) ? E_BAD_LINE : 0;
}

/* ---- writing: checks 5 and 6, each answering 0 or the error ---- */

static unsigned take_state(const uint8_t *data, uint8_t bytes[LINE_BYTES])
{
    const unsigned time = decimal(data + 11, 4);

    if (data[1] != '0' || data[2] != '0' || time == NO_NUMBER)
        return E_DATA;
    for (unsigned i = 0; i < 4; i++) {
        const unsigned eight = hex(data + 3 + 2 * i);
        if (eight == NO_NUMBER)
            return E_DATA;
        bytes[2 + i] = (uint8_t)eight;
    }
    bytes[6] = (uint8_t)(time >> 8);
    bytes[7] = (uint8_t)time;
    return 0;
}

static unsigned take_loop(const uint8_t *data, uint8_t bytes[LINE_BYTES])
{
    const unsigned count = data[0] == 'F' ? decimal(data + 2, 4) : 0;

    if (data[1] < '1' || data[1] > '4' || count == NO_NUMBER)
        return E_DATA;
    bytes[1] = (uint8_t)(data[1] - '0');
    bytes[2] = (uint8_t)(count >> 8);
    bytes[3] = (uint8_t)count;
    return 0;
}

/* The first data letter sets the length; another first character is E003 however long the data. */
static unsigned write_line(const struct command *command, uint8_t *line)
{
    uint8_t bytes[LINE_BYTES] = {0};
    unsigned length, error;

    if (command->length == 0)
        return E_FORM;
    switch (command->data[0]) {
    case 'S':
        length = 15;
        break;
    case 'F':
        length = 6;
        break;
    case 'N':
        length = 2;
        break;
    default:
        return E_DATA;
    }
    if (command->length != length)
        return E_FORM;
    bytes[0] = command->data[0];
    error = bytes[0] == 'S' ? take_state(command->data, bytes) : take_loop(command->data, bytes);
    if (error == 0)
        memcpy(line, bytes, LINE_BYTES);
    return error;
}

static unsigned write_outputs(struct box *box, const struct command *command, uint8_t *log)
{
    const unsigned shift = output_shift(command->address);
    unsigned value;

    if (command->length != 2)
        return E_FORM;
    value = hex(command->data);
    if (value == NO_NUMBER)
        return E_DATA;
    box_set_outputs(box, (box->outputs & ~((uint32_t)0xFF << shift)) | (uint32_t)value << shift, CAUSE_WRITE, log);
    return 0;
}

static unsigned write_variable(struct box *box, const struct command *command, const struct lent *lent, uint16_t *lines)
{
    unsigned value;

    if (command->address <= SINGLE)
        return write_line(command, command->address < LINES ? lent->program + command->address * LINE_BYTES : box->single);
    if (command->address <= V_OUTPUTS_LOW)
        return write_outputs(box, command, lent->log);
    if (command->length != 3)
        return E_FORM;
    value = decimal(command->data, 3);
    if (value > 255)
        return E_DATA;
    if (command->address == V_SPECIAL)
        return box_special_command(box, value, lent, lines);
    box->parameter = (uint8_t)value;
    return 0;
}

/* ---- a finished command ---- */

static bool may_be_written(unsigned address)
{
    return address <= SINGLE || (address >= V_OUTPUTS_HIGH && address <= V_OUTPUTS_LOW) || address == V_PARAMETER || address == V_SPECIAL;
}

/* I is the address after this direction's last one, D the address before it; past 216 or below 000 it is none. */
static unsigned step_from(int last, uint8_t letter)
{
    const int address = letter == 'I' ? last + 1 : last - 1;

#if DAMAGE == 35
    if (address > V_COUNTER_4)
        return 0;
#endif
#if DAMAGE == 37
    if (last == BEFORE_000)
        return 0;
#endif
    return address < 0 || address > V_COUNTER_4 ? NO_NUMBER : (unsigned)address;
}

/* Checks 1 to 3. */
static unsigned take_apart(const struct box *box, struct command *command)
{
    const uint8_t *text = box->command;
    unsigned head = 5;

    if (box->collected < 3)
        return E_SHORT;
    if (text[2] == 'I' || text[2] == 'D')
        head = 3;
    if (box->overlong || text[0] != 'C' || (text[1] != 'R' && text[1] != 'W') || box->collected < head)
        return E_FORM;
    command->write = text[1] == 'W';
    if (head == 5)
        command->address = decimal(text + 2, 3);
    else
        command->address = step_from(command->write ? box->last_write : box->last_read, text[2]);
    if (command->address > V_COUNTER_4 || (command->write && !may_be_written(command->address)))
        return E_ADDRESS;
    command->data = text + head;
    command->length = box->collected - head;
    return 0;
}

/* Check 4: while running or paused only 209 and 210 are written. */
static bool write_locked(const struct box *box, unsigned address)
{
#if DAMAGE == 3
    if (box->mode == PAUSED && address >= V_OUTPUTS_HIGH && address <= V_OUTPUTS_LOW)
        return false;
#endif
    return box->mode != STOPPED && address != V_PARAMETER && address != V_SPECIAL;
}

/* Puts the reply without its 13 and answers its end. The last address moves only where there is no error; E024 is one. */
static uint8_t *answer(struct box *box, const struct lent *lent, uint8_t *reply, uint16_t *lines)
{
    struct command command;
    unsigned error = take_apart(box, &command);

#if DAMAGE == 5
    if (error == 0)
        *(command.write ? &box->last_write : &box->last_read) = (int16_t)command.address;
#endif
    if (error == 0 && !command.write) {
        error = cannot_read(&command, lent->program);
        if (error == 0) {
            box->last_read = (int16_t)command.address;
            return put_variable(box, command.address, lent->program, reply);
        }
#if DAMAGE == 29
        if (error == E_BAD_LINE)
            box->last_read = (int16_t)command.address;
#endif
    } else if (error == 0) {
        error = write_locked(box, command.address) ? E_LOCKED : write_variable(box, &command, lent, lines);
    }
    if (error != 0) {
        *reply = 'E';
        return put_decimal(reply + 1, error, 3);
    }
    box->last_write = (int16_t)command.address;
    reply[0] = 'O';
    reply[1] = 'K';
    return reply + 2;
}

/* Byte 32 is dropped, a-z count as A-Z, all else is a character; the 33rd makes the command overlong. */
static void collect(struct box *box, uint8_t byte)
{
    if (byte == 32)
        return;
    if (box->collected == COMMAND_MOST) {
#if DAMAGE != 10
        box->overlong = true;
#endif
        return;
    }
    box->command[box->collected++] = byte >= 'a' && byte <= 'z' ? (uint8_t)(byte - 'a' + 'A') : byte;
}

struct box_said box_byte(struct box *box, uint8_t byte, uint8_t *program, size_t program_length, uint8_t *saved, size_t saved_length,
                         uint8_t *log, size_t log_length, uint8_t *reply, size_t reply_length)
{
    struct box_said said = {0};

    /* 030 for either area, then 031, then 032. */
    said.refusal = saved_length != PROGRAM_BYTES ? REFUSED_PROGRAM : areas_refused(box, program_length, log_length);
    if (said.refusal == 0 && reply_length < REPLY_LEAST)
        said.refusal = REFUSED_REPLY;
    if (said.refusal != 0)
        return said;
    if (byte != 13) {
        collect(box, byte);
        return said;
    }
    {
        const struct lent lent = {program, saved, log};
        uint8_t *end = answer(box, &lent, reply, &said.lines);

        *end++ = 13;
        said.written = (size_t)(end - reply);
    }
    box->collected = 0;
    box->overlong = false;
    return said;
}
