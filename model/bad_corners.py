"""Scenarios of power-on and of document 02, item 4: Bad lines.

These come before all others. Power-on is not repeated, and no write makes a line Bad: here power-on and 007 load an all-zero saved copy, so that
every line which was not written is Bad, until the last scenario saves end marks.
"""

from script import END, LONG, line_for, program, say, scenario, stopped_by


ONE, TWO = "S00000000010001", "S00000000020001"   # for one tick each


def unwritten(*lines, at=0):
    """Stopped at 000, all lines Bad, outputs 0, parameter 0, event read, 210 is 003; then the lines."""
    say("CW210001^CW210007^CW200%s^CW209200^CW210006^" % END, "OK OK OK OK OK")
    say("CW209000^CW210003^CR212^", "OK OK 014")
    program(*lines, at=at)


@scenario
def power_on():
    # "13 alone, E001"; "power-on loads": zeros are Bad, and stay so.
    say("^CR^CR000^CR001^CR199^", "E001 E001 E024 E024 E024")
    # "The worked point that reads 001 now reads 000": that line is Bad, and E024 leaves the last address read before 000, as D shows.
    say("CRI^CRD^CWDN1^CWI^", "E024 E004 E004 E002")
    # The last address written is before 000 as well: by I alone the whole program is written, and then read. 200 is an end mark, the "first
    # read of 201 is 80, of 212 is 012, then 201 is 00".
    lines = [line_for(address) for address in range(200)]
    say("".join("CWI%s^" % line for line in lines), "OK " * 200)
    say("CRI^" * 219, " ".join(lines) + " %s 80 00 00 00 00 00 00 000 000 000 000 012 0000 0000 0000 0000 E004 E004" % END)
    say("CR210^CR201^CR212^", "000 00 000")
    # "Load and save copy the bytes unaltered": zeros stay zeros.
    say("CW210007^CR001^CW210008^CW210007^CR001^CR200^", "OK E024 OK OK E024 " + END)
    say("CR203^CR204^CR205^CR206^CR209^CR211^CR213^CR216^", "00 00 00 00 000 000 0000 0000")


# ---- Reads.

@scenario
def bad_lines_read():
    # "reading a Bad line over the wire answers E024": each of 000-199. What 200 holds is never Bad, and no load reaches it.
    unwritten()
    say("".join("CR%03d^" % address for address in range(201)), "E024 " * 200 + END)
    say("cr000^ c r 1 9 9 ^CW200N4^CR200^CW210007^CR200^", "E024 E024 OK N4 OK N4")
    # "after the length check": check 5 answers first, and checks 1 to 3 before it.
    say("CR000X^CR0000^CR199 0^CR000" + "0" * 27 + "^CR000" + "0" * 28 + "^", "E002 E002 E002 E002 E002")
    say("CR217^CR217X^CR00X^CR999^CR200X^CR00^CR^", "E004 E004 E004 E004 E002 E002 E001")
    say("CR216^CRI^CRI0^", "0000 E004 E004")
    # A write there is accepted and is read back; its neighbours stay Bad.
    say("CR000^CW000F19999^CR000^CR001^CW001%s^CR001^CR000^CR002^" % END, "E024 OK F19999 E024 OK %s F19999 E024" % END)
    say("CR199^CW199N4^CR199^CR198^", "E024 OK N4 E024")
    # A write that is refused leaves it Bad.
    say("CW100X^CW100^CW100N5^CW100N11^CR100^", "E003 E002 E003 E002 E024")


@scenario
def bad_lines_read_in_each_state():
    # "An error reply changes nothing but the emptied collection": not the line, the outputs, the pause, the wait, nor an unread event.
    unwritten("S00000000FF0003", END)
    say("CR002^!CR002^CR002X^CR000^CR201^", "E024 E024 E002 S00000000FF0003 02")
    say("#CR002^%CR002^CR201^#CR002^%CR211^CR206^CR212^", "E024 E024 03 E024 000 FF 000")
    say("#CR002^CR201^CR206^#CR206^", "E024 02 FF 00")
    say("CR201^CR002^CR199^CR201^", "80 E024 E024 80")
    stopped_by(11, 1)


@scenario
def bad_lines_read_by_steps():
    # E024 "does not move the address": by I and by D, the same address is meant again until it can be read.
    unwritten(ONE, at=5)
    say("CR005^CRI^CRI^CRIX^CRI^CW006N1^CRI^CRI^", ONE + " E024 E024 E002 E024 OK N1 E024")
    say("CRD^CRD^CRD^CRDX^CRD^CW004N2^CRD^CRD^CRI^", ONE + " E024 E024 E002 E024 OK N2 E024 " + ONE)
    # By digits: I and D go on from the last address that was read.
    say("CR100^CRI^CR000^CRD^CR199^CRI^", "E024 N1 E024 %s E024 N1" % ONE)
    # At both ends.
    program("N3", "N4", at=1)
    say("CR001^CRD^CRD^CRI^", "N3 E024 E024 N4")
    say("CR200^CRD^CRI^CRD^CRD^CRD^CRI^", END + " E024 00 %s E024 E024 00" % END)
    program("N1", at=198)
    say("CR198^CRI^CRI^CW199N2^CRI^CRI^", "N1 E024 E024 OK N2 " + END)
    # The address of writes is not moved either.
    say("CW150N4^CR160^CR140^CWIN3^CR151^CR160^CWDN2^CR150^", "OK E024 E024 OK N3 E024 OK N2")


# ---- Running.

@scenario
def event_014():
    # "Running a Bad line stops with event 014 at that line": at a start by 003, by the button, by 005; the outputs stay.
    unwritten()
    say("CW206AA^CW20355^", "OK OK")
    for start, replies, line in (("CW210003^", "OK", 0), ("!", "", 0), ("CW209000^CW210005^", "OK OK", 0),
                                 ("CW209123^CW210005^", "OK OK", 123), ("CW209199^CW210005^", "OK OK", 199)):
        say(start + "CR203^CR206^", replies + " 55 AA")
        stopped_by(14, line)
    # On the tick on which it falls due; on 199, where 009 would be going past it.
    unwritten("S00000000010002")
    say("!#CR201^CR211^CR206^#CR206^", "02 000 01 01")
    stopped_by(14, 1)
    unwritten(ONE, at=198)
    say("CW209198^CW210005^CR206^#CR206^", "OK OK 01 01")
    stopped_by(14, 199)
    # It overwrites an unread event, and is overwritten; a start that is held leaves it unread.
    unwritten(LONG)
    program(END, at=2)
    say("!!CR201^CW209001^CW210005^CR201^CR212^CR212^", "80 OK OK 80 014 000")
    say("CW210005^CW209002^CW210005^CR212^CR212^", "OK OK OK 011 000")
    say("CW209001^CW210005^!CR201^CR212^CR201^!CR212^", "OK OK 82 014 02 010")


@scenario
def bad_lines_not_passed():
    # Line 001 is Bad. Where the program stopped, ticks, Pause, 002 and 004 do not bring it on.
    unwritten(ONE)
    program(TWO, END, at=2)
    say("!####%CW210004^CW210002^##CR206^CR210^", "E021 E022 01 003")
    stopped_by(14, 1)
    # A start on it or before it stops there again; one behind it runs.
    say("CW209001^CW210005^CR211^CR212^!#CR211^CR212^", "OK OK 001 014 001 014")
    say("CW209002^CW210005^CR206^CR211^#CR206^", "OK OK 02 002 00")
    stopped_by(11, 3)
    # Written anew, it runs.
    say("!#CR212^CW001S00000000030001^!CR206^#CR206^CR211^#CR206^CR211^#CR206^", "014 OK 01 03 001 02 002 00")
    stopped_by(11, 3)
    # No tick in a pause comes to it, the first tick after the pause does.
    unwritten(ONE)
    say("!%###CR201^CR211^CR206^%CR201^#CR206^", "03 000 01 02 01")
    stopped_by(14, 1)
    say("!CW210002^##CR201^CR212^CW210004^#", "OK 03 000 OK")
    stopped_by(14, 1)
    # Stopped before it falls due: 001 raises no event, the button 010.
    say("!CW210001^##CR201^CR211^CR212^!!##CR211^CR212^", "OK 00 000 000 000 010")


@scenario
def bad_lines_in_loops():
    # "An event stop keeps the outputs, frees the loops": first in the body, behind a State, in two loops.
    unwritten("F10003")
    program("N1", END, at=2)
    say("CW20655^!CR206^", "OK 55")
    stopped_by(14, 1)
    unwritten("F10003", ONE)
    program("N1", END, at=3)
    say("!CR206^CR213^#CR206^", "01 0003 01")
    stopped_by(14, 2)
    unwritten("F10002", "F40009", ONE)
    program("N4", "N1", END, at=4)
    say("!CR213^CR216^#CR206^", "0002 0009 01")
    stopped_by(14, 3)
    # Behind a loop, after its last round: inside another one, and behind both.
    unwritten("F10002", "F20002", ONE, "N2")
    program("N1", END, at=5)
    say("!CR213^CR214^#CR213^CR214^#", "0002 0002 0002 0001")
    stopped_by(14, 4)
    unwritten("F10002", "F20002", ONE, "N2", "N1")
    say("!###CR213^CR214^#CR206^", "0001 0001 01")
    stopped_by(14, 5)


@scenario
def bad_lines_in_a_search():
    # "The search for a Next passes over it": the For takes its counter.
    unwritten("F30002", ONE)
    program("N3", at=199)
    say("!CR215^CR211^#", "0002 001")
    stopped_by(14, 2)
    # No Next of this counter on a later line is still 007: none, another's, an earlier one, at 199.
    unwritten("F10002")
    say("!")
    stopped_by(7, 0)
    program("N2", at=5)
    say("!")
    stopped_by(7, 0)
    unwritten("N1")
    program("F10002", at=2)
    say("CW209002^CW210005^", "OK OK")
    stopped_by(7, 2)
    unwritten("F10002", at=199)
    say("CW200N1^CW209199^CW210005^", "OK OK OK")
    stopped_by(7, 199)


@scenario
def loops_of_none_over_bad_lines():
    # "passes to the line after the first later Next": what stands between is not run, so it may be Bad.
    unwritten("F10000")
    program("N1", TWO, END, at=2)
    say("!CR206^CR211^CR213^#CR206^", "02 003 0000 00")
    stopped_by(11, 4)
    # On each round of another loop.
    unwritten("F20002", "F10000")
    program("N1", ONE, "N2", END, at=3)
    say("!CR211^CR214^#CR211^CR214^#", "004 0002 004 0001")
    stopped_by(11, 6)
    # To a Bad line: 014 there, on 199 too; "If that Next is line 199, event 009 there".
    unwritten("F10000", ONE, "N1")
    say("CW20655^!CR206^", "OK 55")
    stopped_by(14, 3)
    for at, event in ((198, 14), (199, 9)):
        unwritten("F10000")
        program("N1", at=at)
        say("CW20655^!CR206^", "OK 55")
        stopped_by(event, 199)
    # "006 and 007 are still checked first".
    unwritten("F10002", "F10000")
    program("N1", at=3)
    say("!")
    stopped_by(6, 1)
    unwritten("F10000", ONE)
    say("!")
    stopped_by(7, 0)


@scenario
def bad_lines_after_400():
    # A Bad line is neither For nor Next: due after 400 of them, it stops with 014.
    for count, event, line in (("0398", 14, 2), ("0399", 14, 2), ("0400", 13, 1)):
        unwritten("F1" + count, "N1")
        say("!")
        stopped_by(event, line)
    # A For or a Next in its place is the 401st.
    for last in ("F20001", "F20000", "N2"):
        unwritten("F10399", "N1", last)
        say("!")
        stopped_by(13, 2)
    # On a tick; on 199; in two loops, 1 + 19 * (1 + 19 + 1) = 400 and 1 + 20 * (1 + 18 + 1) = 401.
    for count, event, line in (("0399", 14, 3), ("0400", 13, 2)):
        unwritten(ONE, "F1" + count, "N1")
        say("!#CR206^", "01")
        stopped_by(event, line)
    for count, event, line in (("0399", 14, 199), ("0400", 13, 198)):
        unwritten("F1" + count, "N1", at=197)
        say("CW209197^CW210005^", "OK OK")
        stopped_by(event, line)
    for outer, inner, event, line in (("0019", "0019", 14, 4), ("0020", "0018", 13, 3)):
        unwritten("F1" + outer, "F2" + inner, "N2", "N1")
        say("!")
        stopped_by(event, line)
    # The 400th is a loop of none, whose Next comes behind a Bad line: on to another.
    for count, event, line in (("0398", 14, 5), ("0399", 13, 2)):
        unwritten("F1" + count, "N1", "F20000")
        program("N2", at=4)
        say("!")
        stopped_by(event, line)


# ---- Special commands.

@scenario
def bad_lines_executed():
    # "Executing one by 006 does nothing and answers OK": each of 000-199; 210 and the last write address take it, as every accepted command.
    unwritten()
    say("CW20612^CW20334^CR210^CW210006^CR210^CWD007^CR209^", "OK OK 003 OK 006 OK 007")
    for line in range(200):
        say("CW209%03d^CWI006^" % line, "OK OK")
    say("CR203^CR204^CR205^CR206^CR210^CR211^CR201^CR212^CR213^", "34 00 00 12 006 000 00 000 0000")
    # An unread event stays, and the line where the program stopped.
    say("CW209150^CW210005^CW209007^CW210006^CR206^CR201^", "OK OK OK OK 12 80")
    stopped_by(14, 150)
    # Beside it: a State sets the outputs, For and Next do nothing, 200 is executed as ever.
    unwritten("S00000000789999", "F10002", "N1")
    say("CW20655^CW200S00000000990000^", "OK OK")
    for line, outputs in (("003", "55"), ("000", "78"), ("003", "78"), ("001", "78"), ("002", "78"), ("200", "99"), ("199", "99")):
        say("CW209%s^CW210006^CR206^CR201^CR211^CR212^" % line, "OK OK %s 00 000 000" % outputs)
    # The state and the parameter are checked before.
    say("CW209201^CW210006^CW209003^!CW210006^%CW210006^CW210001^CW210006^CR206^", "OK E023 OK E020 E020 OK OK 78")


@scenario
def bad_lines_saved():
    # "Load and save copy the bytes unaltered": what was Bad when it was saved is Bad when it is loaded.
    unwritten("N1", "N2")
    program("S00000000AA0000", at=199)
    say("CW210008^CR000^CR002^CR199^", "OK N1 E024 S00000000AA0000")
    program("N3", at=0)
    program("N4", "F40001", at=2)
    say("CR000^CR001^CR002^CR003^CW210007^", "N3 N2 N4 F40001 OK")
    say("CR000^CR001^CR002^CR003^CR198^CR199^CR200^", "N1 N2 E024 E024 E024 S00000000AA0000 " + END)
    # Refused while a program runs or is paused, neither copies anything.
    program(LONG)
    program("N3", at=2)
    say("!CW210007^CW210008^%CW210007^CW210008^CR000^CR002^CW210001^", "E020 E020 E020 E020 %s N3 OK" % LONG)
    say("CR000^CR002^CR003^CW210007^CR000^CR002^CR003^", LONG + " N3 E024 OK N1 E024 E024")


@scenario
def end_marks_saved():
    # From here on the saved copy holds end marks.
    program(*[END] * 200)
    say("CW210008^CW000N1^CW199N1^CW210007^CR000^CR199^!", "OK OK OK OK %s %s" % (END, END))
    stopped_by(11, 0)
