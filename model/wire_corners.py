"""Scenarios of the wire and the variables."""

from script import END, LONG, box, enter, known, line_for, program, say, scenario, stopped_by


# ---- The paper's own points.

@scenario
def bench_example():
    # The example of the program `bench`.
    known()
    say("CW000S00000000050003^CW001S00000000000000^CW210003^##CR206^#CR206^CR212^", "OK OK OK 05 00 011")


@scenario
def paper_loop():
    # "F 1 0003; S 01 for 0002; N 1; end mark": outputs 1 from the start, ends at tick 6 with 011.
    known()
    say("cw 000 f 1 0003^CR000^CW000F50003^", "OK F10003 E003")
    program("S00000000010002", "N1", END, at=1)
    say("CW210003^CR206^CR213^#CR213^#CR213^", "OK 01 0003 0003 0002")
    say("##CR213^#CR201^CR206^#CR201^CR206^CR211^CR212^", "0001 02 01 80 00 003 011")


# ---- The wire.

@scenario
def short_commands():
    # Check 1: fewer than three characters; spaces do not count, byte 10 does.
    known()
    say("^C^CR^XY^  ^ C R ^\n^\n\n^", "E001 E001 E001 E001 E001 E001 E001 E001")
    # Check 2: three characters and more, but not of a command.
    say("\n\n\n^XYZ^CXI^XRI^CR0^CR00^CRXY^CW00^RC000^", "E002 E002 E002 E002 E002 E002 E002 E002 E002")


@scenario
def characters():
    # "Byte 32 is dropped. a-z count as A-Z. All other bytes, 10 included, are characters."
    known("S00ABCDEF120034")
    say(" c r 0 0 0 ^cr000^Cr 00 0^", "S00ABCDEF120034 S00ABCDEF120034 S00ABCDEF120034")
    say("cw001s00abcdef120034^CR001^cri^crd^", "OK S00ABCDEF120034 %s S00ABCDEF120034" % END)
    say("\nCR000^CR000\n^CR\n00^CR\n000^C\nR000^", "E002 E002 E004 E004 E002")
    # Neighbours of the letters and digits, and bytes from 128, are not taken for them.
    say("\xc3R000^C\xd2000^BR000^DR000^CQ000^CS000^CV000^CX000^", " ".join(["E002"] * 8))
    say("CR00/^CR00:^CR00@^CR0A0^CR\xb000^CRJ00^CRH00^CRC00^CRE00^", " ".join(["E004"] * 9))
    say("CW2060/^CW206:0^CW206@0^CW2060G^CW2060`^CW2060g^CW206\xc10^CW206\xb00^", " ".join(["E003"] * 8))
    say("CW206aF^CR206^CW206Fa^CR206^", "OK AF OK FA")
    say("CW20900/^CW2090:0^CW209A00^CW209+01^CW209-01^CW2090\n0^", " ".join(["E003"] * 6))
    for byte in [0, 4, 9, 11, 12, 14, 31, 34, 127, 128, 160, 173, 255]:
        say("CR206" + chr(byte) + "^", "E002")
        say("CR20" + chr(byte) + "^" + chr(byte) * 2 + "^", "E004 E001")


@scenario
def overlong():
    # "At most 32 characters are kept; a 33rd makes the command overlong until its 13."
    known()
    say("CR999" + "7" * 27 + "^", "E004")              # 32 characters: the address is judged
    say("CR999" + "7" * 28 + "^", "E002")              # 33: overlong comes first
    say("CR999" + "7" * 35 + "^", "E002")              # 40
    say("CR999" + "7 " * 27 + "   ^", "E004")          # 32 and many spaces
    say("CR999" + " " * 40 + "7" * 27 + " 7^", "E002")  # 33 and many spaces
    say("CW000X" + "0" * 26 + "^CW000X" + "0" * 27 + "^", "E003 E002")
    say("CR206" + " " * 60 + "^CR206^", "00 00")       # spaces never make it overlong
    say("X" * 100 + "^CR206^" + "\n" * 33 + "^CR206^", "E002 00 E002 00")
    say("CW000" + END + "0" * 12 + "^CW000" + END + "0" * 13 + "^", "E002 E002")
    say("CW000S0000000001\n0001^CR000^", "E002 " + END)
    say(" " * 40 + "CR206" + "^", "00")
    # While running the 32-character write reaches check 4, the 33-character one does not.
    known(LONG)
    say("CW210003^CW000X" + "0" * 26 + "^CW000X" + "0" * 27 + "^", "OK E005 E002")
    # Overlong with a last address out of reach: 2 before 3.
    say("CR216^CRI" + "0" * 29 + "^CRI" + "0" * 30 + "^", "0000 E004 E002")


@scenario
def order_of_checks():
    # Two errors apply; the earlier check answers.
    known(LONG)
    say("XR^CRXY^XR999^CX217^CR99^", "E001 E002 E002 E002 E002")  # 1 before 2, 2 before 3
    say("CR217X^CR217^CW217^CW201^CW20100^CRABC^CRABCD^", " ".join(["E004"] * 7))  # 3 before 5
    say("CR256^CR300^CR472^CR512^CR999^CW256N1^CW466001^", " ".join(["E004"] * 7))
    say("CW999X^CW212ABC^CW202G0^CW2080000^", "E004 E004 E004 E004")  # 3 before 5 and 6
    say("CW000^CW000SZZ^CW000F5^CW000N55^CW000S010000000000001^", "E002 E002 E002 E002 E002")  # 5 before 6
    say("CW000X^CW0000^CW000XXXXXXXXXXXXXXXX^", "E003 E003 E003")  # another first character
    say("CW203^CW203G^CW203GGG^CW209XX^CW2099999^CW210^CW21099^CW2100003^", " ".join(["E002"] * 8))
    say("CR000X^CR2060^CR212000^CRI0^", "E002 E002 E002 E002")
    say("CW209255^CW210009^CW210005^CW210002^CW210004^", "OK E003 E023 E022 E021")  # 7: code, state, parameter
    for into in ("CW210003^", "CW210002^"):  # running, then paused
        say(into, "OK")
        say("CW217^CW201^CW202ZZ^CW216S^", "E004 E004 E004 E004")  # 3 before 4
        say("CW000^CW000X^CW200F50000^CW203^CW206GG^CW199SS^", " ".join(["E005"] * 6))  # 4 before 5 and 6
        say("CW210^CW2100^CW210XXX^CW210256^CW210009^CW210000^", "E002 E002 E003 E003 E003 E003")
        say("CW210ABC^CW210005^CW210006^CW210003^CW210008^", "E003 E020 E020 E020 E020")  # state before parameter
        say("CW209^CW209256^CW20900^CW209255^CR209^", "E002 E003 E002 OK 255")


@scenario
def why_not_taken():
    # 02, item 3: 005 and 006 at the edges of their parameters, in each state; 210 named by I after 209.
    for state in ("stopped", "paused", "running"):
        for code, most in (("005", 199), ("006", 200)):
            for parameter in (most, most + 1, 255):
                known(LONG)
                enter(state)
                reply = "E020" if state != "stopped" else "OK" if parameter == most else "E023"
                say("CW209%03d^CWI%s^CR209^" % (parameter, code), "OK %s %03d" % (reply, parameter))
    # Only there: a line or an output that is locked stays E005, an address out of reach E004, by digits and by I and D.
    known(LONG)
    say("CW209255^CWI006^CWI005^CWI000^CWD008^", "OK E023 E023 E003 E004")
    say("CW210003^CW199N1^CWI003^CW206AA^CW211003^CW217003^CW209100^CWI003^CWI004^CWI009^",
        "OK E005 E004 E005 E004 E004 OK E020 E021 E003")
    say("CWI002^CWI003^CWD100^CWI007^CWI004^CWI003^CW005N1^CR209^CR210^", "OK E004 OK E020 OK E004 E005 100 004")
    # 002 and 004 with nothing running, also after an end mark, a stop by button and 001.
    known()
    say("CW210002^CW210004^CW210003^CR212^CW210002^CW210004^", "E022 E021 OK 011 E022 E021")
    program(LONG)
    say("!!CR212^CW210002^CW210004^!CW210002^CW210002^CW210001^CW210004^CW210002^CR210^", "010 E022 E021 OK OK OK E021 E022 001")


@scenario
def read_steps():
    # I and D of reads: both ends, after errors, reads apart from writes.
    known("N1", "N2", "N3")
    say("CR000^CRD^CRI^CRI^CRD^CRD^CRD^", "N1 E004 N2 N3 N2 N1 E004")
    say("CR216^CRI^CRI^CRD^CRI^CRI^", "0000 E004 E004 0000 0000 E004")
    say("CR000^CR217^CRI^", "N1 E004 N2")             # not moved by E004
    say("CR000^CR002X^CRI^", "N1 E002 N2")            # nor by E002
    say("CR000^CRI0^CRI^CRX^CRD^", "N1 E002 N2 E002 N1")
    say("CW100N4^CRI^CWI N3^CRI^", "OK N2 OK N3")     # nor by a write
    say("CR101^CR199^CRI^CRI^CRI^", "N3 %s %s 00 00" % (END, END))
    say("CR208^CRI^CRI^CRI^CRI^CRI^CRI^", "000 000 003 000 000 0000 0000")
    say("CR202^CRI^CRI^CRI^CRI^CRI^CRI^", "00 00 00 00 00 00 000")


@scenario
def write_steps():
    # I and D of writes: both ends, the addresses never written between, after errors.
    known()
    say("CW000N1^CWDN2^CWIN2^CWIN3^CR000^CRI^CRI^CWDN4^CRD^", "OK E004 OK OK N1 N2 N3 OK N4")
    say("CW000N1^CWIX^CWI^CWIN5^CWINNN^CWIN2^CR001^", "OK E003 E002 E003 E002 OK N2")
    say("CW000N1^CW217N1^CWIN3^CR001^CR150^CWIN4^CR002^", "OK E004 OK N3 %s OK N4" % END)
    say("CW199N1^CWIN2^CWIN3^CWI00^CWDN4^CR199^CR200^", "OK OK E004 E004 OK N4 N2")
    say("CW20311^CWD22^CWI33^CR203^CRI^CW20644^CWI55^CWD66^CR205^CRI^", "OK E004 OK 11 33 OK E004 OK 66 44")
    say("CW209007^CWD000^CWI001^CWI001^CWD008^CR209^CR210^", "OK E004 OK E004 OK 008 001")
    # A refused special command, or a write refused while running, does not move the address.
    known(LONG)
    say("CW209201^CW210006^CWI001^CWD000^", "OK E023 OK OK")
    say("CW000%s^CW209000^CWI003^CW005N1^CWI000^CWD009^CR209^" % LONG, "OK OK OK E005 E004 OK 009")
    say("CW210001^CW005N1^CW210003^CWI N2^CWIN2^CW210001^CWD010^CR209^", "OK OK OK E004 E004 OK OK 010")
    say("CW005N1^!CWIN2^CWDN2^!CWIN3^CR006^CR212^", "OK E005 E005 OK N3 010")


@scenario
def download():
    # "Every download script here writes 000 by address and then increments": to 200, behind which nothing is written; and back by reads.
    known()
    lines = [line_for(address) for address in range(201)]
    say("CW000%s^" % lines[0] + "".join("CWI%s^" % line for line in lines[1:]), "OK " * 201)
    say("CWI00^CWIN1^CWD%s^CWI%s^CWI00^" % (lines[199], lines[200]), "E004 E004 OK OK E004")
    say("CR000^" + "CRI^" * 200, " ".join(lines))
    say("CRI^" * 18, "00 00 00 00 00 00 00 000 000 003 000 000 0000 0000 0000 0000 E004 E004")
    say("CRD^" * 15, "0000 0000 0000 000 000 003 000 000 00 00 00 00 00 00 00")
    say("CRD^" * 203, " ".join(lines[::-1]) + " E004 E004")
    say("CRI^", lines[1])


@scenario
def formats():
    # Check 6: formats, d above 255, reserved digits not 00, loop counter not 1-4; and lengths of check 5.
    known()
    for good in ["S00000000000000", "S00FFFFFFFF9999", "S00123456780001", "S00800000010010",
                 "F10000", "F49999", "F20001", "N1", "N2", "N3", "N4"]:
        for address in (0, 199, 200):
            say("CW%03d%s^CR%03d^" % (address, good, address), "OK " + good)
    for bad in ["S01000000000000", "S10000000000000", "S0A000000000000", "SFF000000000000", "S00G00000000000",
                "S0000000000000A", "S0000000000000\n", "S00\n00000000000", "F1000\n", "S00000000000A00",
                "S000000000G0000", "F00000", "F50000", "F90000", "FA0000",
                "F1000A", "F1A000", "F1-001", "N0", "N5", "N9", "NA", "NN", "T00000000000000", "1", "C", "E00000"]:
        for address in (0, 200):
            say("CW%03d%s^" % (address, bad), "E003")
    for bad in ["S", "S0000000000000", "S000000000000000", "F", "F1", "F1000", "F10000 0", "N", "N11", "N1 0", ""]:
        for address in (199, 200):
            say("CW%03d%s^" % (address, bad), "E002")
    say("CR000^CR199^CR200^", "N4 N4 N4")
    say("CW209000^CW209255^CW209256^CW209999^CW20925^CW2090255^CR209^", "OK OK E003 E003 E002 E002 255")
    say("CW2030^CW203000^CW2030X^CR203^", "E002 E002 E003 00")


# ---- Variables.

@scenario
def outputs_by_byte():
    # "A write to 203-206 alters its eight bits of the output word and no other bit."
    read = "CR203^CR204^CR205^CR206^"
    for others in ("00", "FF", "A5"):
        known()
        say("".join("CW%d%s^" % (k, others) for k in (203, 204, 205, 206)), "OK OK OK OK")
        for k in range(4):
            for value in ("01", "80", "5A", "FF", "00", others):
                word = [others] * 4
                word[k] = value
                say("CW%d%s^%s" % (203 + k, value, read), "OK " + " ".join(word))
    # Output n is bit n-1: X4 is outputs 32-25 at 203, X1 is outputs 8-1 at 206.
    known("S00123456780001")
    say("CW210006^" + read, "OK 12 34 56 78")
    # A State line sets all 32 at once; the time passes; the stop keeps the outputs.
    say("CW001S00FEDCBA980000^!#" + read + "CR212^", "OK FE DC BA 98 011")


@scenario
def every_address():
    # Every address read and written in each of the three states.
    known()
    never = (201, 202, 207, 208, 211, 212, 213, 214, 215, 216)
    plain = {203: "12", 204: "34", 205: "56", 206: "78", 209: "200"}
    for state, code in (("stopped", "001"), ("running", "002"), ("paused", "002")):
        say({"stopped": "", "running": "!", "paused": "%"}[state] + "CR201^",
            {"stopped": "00", "running": "02", "paused": "03"}[state])
        for address in range(217):
            line = line_for(address) if state == "stopped" else "F37777"  # no address holds F 3 7777
            data = line if address <= 200 else plain.get(address, code if address == 210 else "00")
            refused = "E004" if address in never else "E005" if state != "stopped" else "OK"
            say("CW%03d%s^" % (address, data), "OK" if address in (209, 210) else refused)
        if state == "running":
            say("CW210004^", "OK")  # 210 was written with 002: the box goes on
        for address in range(201):
            say("CR%03d^" % address, line_for(address))
        say("".join("CR%d^" % k for k in range(201, 217)), {
            "stopped": "00 00 12 34 56 78 00 000 200 001 000 000 0000 0000 0000 0000",
            "running": "02 00 00 00 00 FF 00 000 200 004 000 000 0000 0000 0000 0000",
            "paused": "03 00 00 00 00 FF 00 000 200 002 000 000 0000 0000 0000 0000"}[state])


@scenario
def refused_writes():
    # "Write while running or paused to anything but 209 and 210: E005"; nothing is stored.
    for state in ("running", "paused"):
        known(LONG, "N1")
        enter(state)
        say("CW001N2^CW200N3^CW206AA^CW20355^CR001^CR200^CR206^CR203^", "E005 E005 E005 E005 N1 %s FF 00" % END)
        say("CW209017^CR209^CR211^", "OK 017 000")
