"""loglist_records.py: records of a log as bytes, for the cases of loglist.py. All that is done here is spelling."""


def numbers(*values):
    return b"".join(value.to_bytes(4, "big") for value in values)


def record(tick, kind, cause, value, word, mark=0x1EE2):
    return mark.to_bytes(2, "big") + bytes([kind, cause]) + numbers(tick, value, word)


def change(tick, cause, word, before, mark=0x1EE2):
    """The output word after the change and before it."""
    return record(tick, 1, cause, word, before, mark)


def gap(tick, lost, word, cause=0, mark=0x1EE2):
    """The tick of the first lost change, how many are lost, and the output word after the last."""
    return record(tick, 2, cause, lost, word, mark)


def older_record(tick, kind, cause, value, mark=0x1EE1):
    return mark.to_bytes(2, "big") + bytes([kind, cause]) + numbers(tick, value)


def older_change(tick, cause, word, mark=0x1EE1):
    return older_record(tick, 1, cause, word, mark)


def older_gap(tick, lost, cause=0, mark=0x1EE1):
    return older_record(tick, 2, cause, lost, mark)


def changes(count):
    """Changes by line 7 in ticks 0, 1, 2 and so on, to the words 1 and 2 in turn."""
    return b"".join(change(tick, 7, 2, 1) if tick % 2 else change(tick, 7, 1, 2) for tick in range(count))


def lines(count):
    """Their text."""
    return "".join(f"{tick} 1 7 00000002 00000001\n" if tick % 2 else f"{tick} 1 7 00000001 00000002\n" for tick in range(count))


def older_changes(count):
    """The same under the older mark."""
    return b"".join(older_change(tick, 7, 2 if tick % 2 else 1) for tick in range(count))


def older_lines(count):
    return "".join(f"{tick} 1 7 00000002\n" if tick % 2 else f"{tick} 1 7 00000001\n" for tick in range(count))
