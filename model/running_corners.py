"""Scenarios of the special commands, the events and the running of programs."""

from script import END, LONG, box, enter, known, program, say, scenario, stopped_by


# ---- Special commands.

@scenario
def special_commands():
    # The table: Stop, Pause, Auto; 210 shows the last accepted one, and a refused one changes nothing.
    # 02, item 3: "E020 needs a stopped program, E021 needs a pause, E022 nothing is running to pause".
    table = {"001": "OK OK OK", "002": "E022 OK OK", "003": "OK E020 E020", "004": "E021 OK E021",
             "005": "OK E020 E020", "006": "OK E020 E020", "007": "OK E020 E020", "008": "OK E020 E020",
             "000": "E003 E003 E003", "009": "E003 E003 E003", "255": "E003 E003 E003", "257": "E003 E003 E003"}
    # "E023 parameter out of reach": of 005 and 006, after the state; the others look at no parameter.
    beyond = dict(table, **{"005": "E023 E020 E020", "006": "E023 E020 E020"})
    after = {"stopped": {"003": "02", "005": "02"}, "paused": {"001": "00", "004": "02"},
             "running": {"001": "00", "002": "03"}}
    before = {"stopped": ("008", "00"), "paused": ("003", "03"), "running": ("003", "02")}
    for parameter, rows in (("000", table), ("255", beyond)):
        for code, replies in rows.items():
            for state, reply in zip(("stopped", "paused", "running"), replies.split()):
                known()
                say("CW210008^", "OK")  # the saved copy keeps its end marks
                program(LONG)
                say("CW209%s^" % parameter, "OK")
                enter(state)
                last, bits = before[state]
                taken = reply == "OK"
                say("CW210%s^CR201^CR210^CR212^CR209^" % code, "%s %s %s 000 %s" % (
                    reply, after[state].get(code, bits) if taken else bits, code if taken else last, parameter))
                loaded = (code, state) == ("007", "stopped")
                lit = state != "stopped" or (taken and code in ("003", "005", "006"))
                say("CR000^CR206^CR211^", "%s %s 000" % (END if loaded else LONG, "FF" if lit else "00"))
                if code == "008" and state == "stopped":
                    program(END)
                    say("CW210008^", "OK")


@scenario
def parameter_reach():
    # "start at parameter, at most 199"; "execute one line, parameter at most 200"; else E023.
    known("S00000000770005", at=199)
    say("CW200S00000000880005^", "OK")
    say("CW209199^CW210006^CR206^CR211^CR201^", "OK OK 77 000 00")
    say("CW209200^CW210006^CR206^CR211^CR201^", "OK OK 88 000 00")
    say("CW209201^CW210006^CR206^CW209255^CW210006^CR210^", "OK E023 88 OK E023 006")
    say("CW210005^CW209201^CW210005^CW209200^CW210005^CR201^CR210^", "E023 OK E023 OK E023 00 006")
    say("CW209199^CW210005^CR201^CR206^CR211^", "OK OK 02 77 199")
    say("####CR201^#", "02")
    stopped_by(9, 199)
    # 003 and the button start at 000 whatever the parameter.
    say("CW209255^CW210003^CR211^CR212^!CR211^CR212^CR210^", "OK OK 000 011 000 011 003")


@scenario
def single_line():
    # "006 sets the outputs of a State line and ignores its time; For and Next do nothing."
    known("S00000000110000", "S00000000229999", "F10005", "N1")
    for line, outputs in (("000", "11"), ("001", "22"), ("002", "22"), ("003", "22"), ("004", "00")):
        say("CW209%s^CW210006^CR206^CR201^CR211^CR212^CR213^" % line, "OK OK %s 00 000 000 0000" % outputs)
    say("CW20655^CW209200^CW200F10001^CW210006^CR206^CW200N1^CW210006^CR206^CR212^", "OK OK OK OK 55 OK OK 55 000")


@scenario
def load_and_save():
    # 007 loads and 008 saves lines 000-199; line 200, outputs, line number and event stay.
    known("F10000", "N1", "S00000000AA0000")
    say("CW199N4^CW200N3^CW20677^CW210008^", "OK OK OK OK")
    program("N2", "N2", "N2")
    say("CW199N2^CW200N2^CR000^CW210007^", "OK OK N2 OK")
    say("CR000^CR001^CR002^CR003^CR199^CR200^CR206^", "F10000 N1 S00000000AA0000 %s N4 N2 77" % END)
    say("!CR211^CW210007^CW210008^CR201^CR211^CR206^CR212^", "002 OK OK 80 002 AA 011")
    program(END, END, END)
    say("CW199%s^CW210008^CW000N1^CW210007^CR000^CR199^" % END, "OK OK OK OK %s %s" % (END, END))


@scenario
def buttons():
    # "Start/Stop starts at 000 when stopped, else stops. Pause pauses, continues, or when stopped does nothing."
    known(LONG)
    say("%CR201^CR212^!CR201^!CR201^CR212^", "00 000 02 80 010")
    say("!%CR201^%CR201^%CR201^!", "03 02 03")
    stopped_by(10, 0)
    say("%CR201^CR210^CR206^", "00 003 FF")           # buttons are no special commands
    say("!%CW210002^CR201^CW210004^CR201^CW210002^%CR201^CW210001^CR201^CR212^", "OK 03 OK 02 OK 02 OK 00 000")
    # A button does not disturb a command being collected.
    say("CR!2%0#6^CR!211^", "FF 000")
    say("CR201^CR212^", "80 010")


# ---- Events and stops.

@scenario
def status_bits():
    # D7 unread event, D1 running (also when paused), D0 paused.
    known(LONG)
    say("CR201^!CR201^%CR201^!CR201^", "00 02 03 80")
    say("!CR201^%CR201^CR212^CR201^%CR201^CW210001^CR201^", "82 83 010 03 02 OK 00")
    # 001 raises no event and leaves an unread one; a start leaves it too.
    say("!!CW210001^CR201^CW210003^CW210001^CR201^CR212^CR201^", "OK 80 OK OK 80 010 00")
    # A refused read of 212 clears nothing; a read that comes to it by I or D does.
    say("!!CR2120^CR201^CR211^CRI^CR201^!!CR213^CRD^CR201^", "E002 80 000 010 00 0000 010 00")
    # An event stop overwrites any unread event.
    say("!!CW209001^CW210005^CR201^CR212^CR212^", "OK OK 80 011 000")
    say("!!CW001N1^CW210005^CR212^CW210005^!%!CR212^", "OK OK 008 OK 010")


@scenario
def event_006():
    # 006 busy counter: the same For stands inside its own loop.
    known("S00000000010001", "F10002", "F10003", "N1", "N1")
    say("!CR201^#CR206^", "02 01")
    stopped_by(6, 2)
    # 006 also by crossed loops: N 1 goes back over F 2, which is busy.
    known("F10002", "F20002", "S00000000020001", "N1", "N2")
    say("!CR213^CR214^#", "0002 0002")
    stopped_by(6, 1)


@scenario
def event_007():
    # 007 no Next of this counter on a later line: none, another's, an earlier one, at 199.
    known("S00000000030001", "F10002")
    say("!#")
    stopped_by(7, 1)
    known("F10002", "N2", "N3", "N4")
    say("!")
    stopped_by(7, 0)
    known("N1", "S00000000040001", "F10002")
    say("CW209001^CW210005^#", "OK OK")
    stopped_by(7, 2)
    known("F10002", at=199)
    say("CW200N1^CW209199^CW210005^", "OK OK OK")     # line 200 is no line of the program
    stopped_by(7, 199)


@scenario
def event_008():
    # 008 Next with a free counter: no For at all, another's For, after its loop has ended.
    known("N1")
    say("!")
    stopped_by(8, 0)
    known("F10002", "N2", "N1")
    say("!")
    stopped_by(8, 1)
    known("F10002", "N1", "N1")
    say("!")
    stopped_by(8, 2)


@scenario
def event_009():
    # 009 going on past 199 from a State, from a Next.
    known("S00000000050001", at=199)
    say("CW209199^CW210005^CR201^#CR206^", "OK OK 02 05")
    stopped_by(9, 199)
    known("F10003", "N1", at=198)
    say("CW209198^CW210005^", "OK OK")
    stopped_by(9, 199)


@scenario
def event_011():
    # 011 a State with time 0: outputs set, stopped; at 000, on a tick, at 199.
    known("S00000000060000")
    say("!CR206^", "06")
    stopped_by(11, 0)
    known("S00000000070000", at=199)
    say("CW209199^CW210005^CR206^", "OK OK 07")
    stopped_by(11, 199)


@scenario
def event_010():
    # 010 by the button, running and paused; 001 keeps line and outputs and raises nothing.
    known("F40003", "S00000000080001", "S00000000090005", "N4")
    say("!#CR211^CR216^!CR206^", "002 0003 09")
    stopped_by(10, 2)
    say("!#%!")
    stopped_by(10, 2)
    say("!CW210001^CR211^CR201^CR216^CR206^CR212^", "OK 001 00 0000 08 000")
    # Ticks while stopped run nothing.
    say("#####CR201^CR211^CR206^", "00 001 08")


# ---- Running.

@scenario
def starts_inside_loops():
    # "Next C: counter not busy, 008, even if a For stands above (a start inside a loop)."
    known("F10002", "S00000000010001", "F20002", "S00000000020001", "N2", "N1")
    for start, ticks, line in (("001", "#####", 5), ("003", "#", 4), ("004", "", 4), ("005", "", 5)):
        say("CW209%s^CW210005^%s" % (start, ticks), "OK OK")
        stopped_by(8, line)
    # "A start frees all loops": stopped inside, started inside again.
    say("!#CR213^CR214^!CR212^CW209004^CW210005^", "0002 0002 010 OK OK")
    stopped_by(8, 4)


@scenario
def four_counters():
    # Four nested loops; after each tick the four counters and the line.
    known("F10002", "F20001", "F30002", "F40003", "S00000000010001", "N4", "N3", "N2", "N1", END)
    read = "CR213^CR214^CR215^CR216^CR211^"
    say("!" + read, "0002 0001 0002 0003 004")
    for one, three, four in ((2, 2, 2), (2, 2, 1), (2, 1, 3), (2, 1, 2), (2, 1, 1), (1, 2, 3), (1, 2, 2),
                             (1, 2, 1), (1, 1, 3), (1, 1, 2), (1, 1, 1)):
        say("#" + read, "%04d 0001 %04d %04d 004" % (one, three, four))
    say("#")
    stopped_by(11, 9)
    # A counter may be used again once free; loops one after the other.
    known("F10002", "S00000000010001", "N1", "F10003", "S00000000020001", "N1", END)
    say("!CR213^#CR213^#CR213^CR206^#CR213^#CR213^CR206^#", "0002 0001 0003 02 0002 0001 02")
    stopped_by(11, 6)
    # The inner loop is entered anew on each pass of the outer.
    known("F20002", "F10002", "S00000000010001", "N1", "N2", END)
    say("!CR213^CR214^#CR213^CR214^#CR213^CR214^#CR213^CR214^#", "0002 0002 0001 0002 0002 0001 0001 0001")
    stopped_by(11, 5)


@scenario
def counts():
    # The least count that runs its body.
    known("F30001", "S00000000010001", "N3", END)
    say("!CR215^#", "0001")
    stopped_by(11, 3)
    # The greatest count, with a State of time 0001 inside: 9,999 ticks.
    known("F29999", "S00000000010001", "N2", END)
    say("!CR214^#CR214^" + "#" * 9997 + "CR214^CR201^#CR206^", "9999 9998 0001 02 00")
    stopped_by(11, 3)


@scenario
def times():
    # "the next line falls due on the T-th tick taken unpaused"; 9999 is the greatest.
    known("S00000000010001", "S00000000020002", "S00000000030001", END)
    say("!CR206^#CR206^#CR206^#CR206^#CR206^CR212^", "01 02 02 03 00 011")
    known("S00000000019999", "S00000000020000")
    say("!" + "#" * 9998 + "CR206^CR201^CR211^#CR206^", "01 02 000 02")
    stopped_by(11, 1)


@scenario
def four_hundred():
    # "One call runs at most 400 For and Next lines. Were a 401st due, the program stops there with event 013."
    for count, event, line in (("0398", 11, 2), ("0399", 11, 2), ("0400", 13, 1), ("9999", 13, 1)):
        known("F1" + count, "N1", END)
        say("!")
        stopped_by(event, line)
    # After 400 the next line is a State: it runs. A For or Next there does not, whatever it would end in.
    known("F10399", "N1", "S00000000010002")
    say("!CR201^CR211^CR206^##", "02 002 01")
    stopped_by(11, 3)
    for last in ("F20001", "N2", "N1", "F10001"):
        known("F10399", "N1", last, "N2")
        say("!")
        stopped_by(13, 2)
    # The 400th may end in 007 or 008 itself.
    for last, event in (("F20001", 7), ("N2", 8)):
        known("F10398", "N1", last)
        say("!")
        stopped_by(event, 2)
    # Past 199 with the 400th line is 009; with a 401st due it is 013.
    for count, event in (("0399", 9), ("0400", 13)):
        known("F1" + count, "N1", at=198)
        say("CW209198^CW210005^", "OK OK")
        stopped_by(event, 199)
    # On a tick the count starts anew; the outputs stay when 013 stops.
    known("F10003", "F20198", "N2", "S00000000010001", "N1", "F30399", "N3", END)
    say("!#CR213^#CR213^CR201^#CR206^CR212^", "0002 0001 02 01 013")
    known("S00000000550001", "F10399", "N1", END)
    say("!#CR206^", "00")
    stopped_by(11, 3)
    known("S00000000550001", "F10400", "N1", END)
    say("!#CR206^", "55")
    stopped_by(13, 2)
    # Nested loops: 1 + 20 * (1 + 18 + 1) = 401 lines, and 1 + 19 * (1 + 19 + 1) = 400.
    known("F10020", "F20018", "N2", "N1", END)
    say("!")
    stopped_by(13, 3)
    known("F10019", "F20019", "N2", "N1", END)
    say("!")
    stopped_by(11, 4)


@scenario
def pauses():
    # "pausing neither gains nor loses a tick": a pause before each tick of a program, by button and by command.
    steps = ["01 001 0002", "01 001 0002", "02 002 0002", "01 001 0001", "01 001 0001", "02 002 0001"]
    read = "CR206^CR211^CR213^"
    known("F10002", "S00000000010002", "S00000000020001", "N1", "S00000000030000")
    for pause, resume in (("%", "%"), ("CW210002^", "CW210004^")):
        ok = "" if pause == "%" else "OK "
        for place in range(6):
            say("!")
            for k, step in enumerate(steps):
                if k == place:
                    say(pause + "###CR201^" + read + resume, ok + "03 " + step + " " + ok)
                say("CR201^" + read + "#", "02 " + step)
            say("CR206^", "03")
            stopped_by(11, 4)
    # A pause as long as the line; a pause of no ticks; a pause in the last tick of a line.
    known("S00000000010003", END)
    say("!%%##%" + "#" * 20 + "CR206^CR201^%CR206^#CR206^CR212^", "01 03 01 00 011")
    # Traffic, refused commands and writes to 209 between ticks move nothing.
    known("S00000000010003", END)
    say("!#CR217^CW209005^CW210003^CW000N1^#CR206^" + "X" * 40 + "^CW210005^CR206^#CR206^CR212^",
        "E004 OK E020 E005 01 E002 E020 01 00 011")


@scenario
def line_numbers():
    # 211: "line now held, or where the program stopped"; a later 006, 007 or write leaves it.
    known("S00000000010001", "F10002", "S00000000020002", "N1", END)
    say("!CR211^#CR211^#CR211^#CR211^CR213^##CR211^CR212^", "000 002 002 002 0001 004 011")
    say("CW209002^CW210006^CR211^CW000N1^CW210007^CR211^CW210001^%CR211^", "OK OK 004 OK OK 004 OK 004")
