"""Scenarios of document 02, item 2: loops of none."""

from script import END, known, program, say, scenario, stopped_by


ONE, TWO = "S00000000010001", "S00000000020001"   # for one tick each


@scenario
def loops_of_none():
    # "For with count 0000 passes to the line after the first later Next of that counter and takes no counter". The worked point: its body
    # is not run, the counter is free while the line behind it is held, and the line reads back 0000.
    known("F10000", ONE, "N1", TWO, END)
    say("CR000^!CR206^CR211^CR213^CR000^#CR206^", "F10000 02 003 0000 F10000 00")
    stopped_by(11, 4)
    # With nothing inside; on a tick; with an end mark behind it.
    known(ONE, "F40000", "N4", TWO, END)
    say("!CR206^CR211^#CR206^CR211^CR216^#", "01 000 02 003 0000")
    stopped_by(11, 4)
    known("F20000", ONE, "N2", "S00000000030000")
    say("!CR206^", "03")
    stopped_by(11, 3)
    # "For and Next do nothing" by command 006.
    say("CW20655^CW209000^CW210006^CR206^CR211^CR214^CR212^", "OK OK OK 55 003 0000 000")
    # Inside a loop it is passed on each round; a loop may hold nothing else.
    known("F10003", "F20000", ONE, "N2", TWO, "N1", END)
    for left in (3, 2, 1):
        say(("!" if left == 3 else "#") + "CR211^CR206^CR213^CR214^", "004 02 %04d 0000" % left)
    say("#")
    stopped_by(11, 6)
    known("F10003", "F20000", "N2", "N1", END)
    say("!")
    stopped_by(11, 4)
    # A start inside the body that it passes over: the Next there finds its counter free.
    known("F10000", ONE, "N1", END)
    for start, tick in (("001", "#"), ("002", "")):
        say("CW209%s^CW210005^%s" % (start, tick), "OK OK")
        stopped_by(8, 2)


@scenario
def loops_of_none_around_loops():
    # Around a loop of its own counter: the first later Next is that loop's, and the second finds its counter free.
    known("F10000", "F10002", ONE, "N1", TWO, "N1", END)
    say("!CR211^CR206^CR213^#", "004 02 0000")
    stopped_by(8, 5)
    # Before one: the counter was not taken.
    known("F10000", ONE, "N1", "F10002", TWO, "N1", END)
    say("!CR211^CR206^CR213^#CR213^#", "004 02 0002 0001")
    stopped_by(11, 6)
    # Around a loop of another counter: with its Next inside, that loop is passed over whole.
    known("F10000", "F20002", ONE, "N2", "N1", TWO, END)
    say("!CR211^CR206^CR214^#", "005 02 0000")
    stopped_by(11, 6)
    # With its Next behind, its For was not run.
    known("F10000", "F20002", ONE, "N1", TWO, "N2", END)
    say("!CR211^CR206^CR214^#", "004 02 0000")
    stopped_by(8, 5)
    # The other loop's For above: its Next inside is passed over and the loop stays open, and one behind closes it.
    known("F20002", "F10000", ONE, "N2", "N1", TWO, END)
    say("!CR211^CR213^CR214^#", "005 0000 0002")
    stopped_by(11, 6)
    known("F20002", "F10000", "N2", "N1", TWO, "N2", END)
    say("!CR211^CR214^#CR211^CR214^#", "004 0002 004 0001")
    stopped_by(11, 6)
    # One loop of none around another: the inner one is not run, its Next inside or behind.
    known("F10000", "F20000", ONE, "N2", "N1", "S00000000030000")
    say("!CR206^", "03")
    stopped_by(11, 5)
    known("F10000", "F20000", "N1", TWO, "N2", END)
    say("!CR206^CR211^#", "02 003")
    stopped_by(8, 4)


@scenario
def loops_of_none_at_199():
    # "If that Next is line 199, event 009 there": 01, "line stays 199", and the outputs stay.
    known("F10000", ONE, at=10)
    program("N1", at=199)
    say("CW20655^CW209010^CW210005^CR206^", "OK OK OK 55")
    stopped_by(9, 199)
    known(ONE, "F30000", "N3", at=197)
    say("CW209197^CW210005^#CR206^", "OK OK 01")
    stopped_by(9, 199)
    # A loop that is open then is freed.
    known("F20002", "F10000", "N2", at=10)
    program("N1", at=199)
    say("CW209010^CW210005^", "OK OK")
    stopped_by(9, 199)
    # A Next before it is the first later one; with the Next on 198, line 199 runs.
    known("F10000", "N1", "S00000000030000", at=10)
    program("N1", at=199)
    say("CW209010^CW210005^CR206^", "OK OK 03")
    stopped_by(11, 12)
    known("F10000", "N1", TWO, at=197)
    say("CW209197^CW210005^CR206^CR211^#", "OK OK 02 199")
    stopped_by(9, 199)


@scenario
def loops_of_none_refused():
    # "006 and 007 are still checked first": a busy counter, also on its last round, and 006 before 007.
    for count in ("0002", "0001"):
        known("F1" + count, ONE, "F10000", "N1", END)
        say("!#")
        stopped_by(6, 2)
    known("F10002", "F20000", "N1", "N2", "F10000", END)
    say("!")
    stopped_by(6, 4)
    # No Next of this counter on a later line: none, another's, an earlier one, at 199.
    known("F10000", ONE, END)
    say("!")
    stopped_by(7, 0)
    known("N1", "F10000", "N2", "N3", "N4")
    say("CW209001^CW210005^", "OK OK")
    stopped_by(7, 1)
    known("F10000", at=199)
    say("CW200N1^CW209199^CW210005^", "OK OK OK")
    stopped_by(7, 199)


@scenario
def loops_of_none_counted():
    # "The For still counts as run", and its Next does not: 1 + 2 * 199 = 399 lines, and 1 + 2 * 200 = 401.
    for count, event, line in (("0199", 11, 4), ("0200", 13, 3)):
        known("F1" + count, "F20000", "N2", "N1", END)
        say("!")
        stopped_by(event, line)
    # 1 + 3 * 133 = 400 lines; one round more, and the first loop of none is the 401st.
    for count, event, line in (("0133", 11, 6), ("0134", 13, 1)):
        known("F1" + count, "F20000", "N2", "F30000", "N3", "N1", END)
        say("!")
        stopped_by(event, line)
    # On a tick the count starts anew.
    for count, event, line in (("0133", 11, 7), ("0134", 13, 2)):
        known(ONE, "F1" + count, "F20000", "N2", "F30000", "N3", "N1", END)
        say("!CR206^#", "01")
        stopped_by(event, line)
    # The 400th may be one: on to a State, to 009, to 006 and 007 of its own.
    known("F10398", "N1", "F20000", ONE, "N2", TWO, END)
    say("!CR211^CR206^#", "005 02")
    stopped_by(11, 6)
    known("F10399", "N1", "F20000", ONE, "N2", TWO, END)
    say("!")
    stopped_by(13, 2)
    for count, event, line in (("0398", 9, 199), ("0399", 13, 197)):
        known("F1" + count, "N1", "F20000", ONE, "N2", at=195)
        say("CW209195^CW210005^", "OK OK")
        stopped_by(event, line)
    for count, event in (("0398", 7), ("0399", 13)):
        known("F1" + count, "N1", "F20000", END)
        say("!")
        stopped_by(event, 2)
    for count, event in (("0397", 6), ("0398", 13)):
        known("F20001", "F1" + count, "N1", "F20000", "N2", END)
        say("!")
        stopped_by(event, 3)
    # A hundred of them fill the program area; the last one's Next is line 199.
    known(*("F10000", "N1") * 100)
    say("!")
    stopped_by(9, 199)
