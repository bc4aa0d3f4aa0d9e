"""rig_bad_lines.py: the part of rig.py's trial script about Bad lines (document 02, item 4)."""
from rig_script import END_MARK, change, empty, line, on, press, send, tick


def saving():
    """Power-on and 007 load byte for byte, and 008 saves so: "Load and save copy the bytes unaltered"."""
    good, bad, strange = "4E02000000000000", "4605000300000000", "0123456789ABCDEF" + "FF" * 8
    on(saved=good + bad + END_MARK * 198)
    line("get program 0 1600", good + bad + END_MARK * 198)
    line("get saved 0 16", good + bad)  # power-on only reads it
    line(f"set program 1584 {strange}EE", "ok")  # 198 and 199, and a byte that is not lent
    send("CW210008", "OK")
    line("get program 1584 17", strange + "EE")
    line("get saved 0 1601", good + bad + END_MARK * 196 + strange + "00")
    send("CW000F10001", "OK")
    send("CW001N3", "OK")
    send("CR001", "N3")
    line(f"set saved 1576 {bad}", "ok")
    send("CW210007", "OK")
    send("CR000", "N2")
    line("get program 0 1601", good + bad + END_MARK * 195 + bad + strange + "EE")
    line("get saved 1576 25", bad + strange + "00")


BAD = ("0000000000000000", "FFFFFFFFFFFFFFFF",
       "7300000000000000", "5301000000000000", "5300000000002710",  # a State but for its first byte, its reserved one, a time of 10000
       "6601000300000000", "4600000300000000", "4605000300000000",  # a For but for its first byte, its counter
       "4601271000000000", "4601000301000000", "4601000300000001",  # a count of 10000, its zeros
       "6E01000000000000", "4E00000000000000", "4E05000000000000",  # a Next but for its first byte, its counter
       "4E01010000000000", "4E01000000000001")  # its zeros


def reads_of_bad_lines():
    """E024 after the length check, and the address stays. Numbers at the end of their range are no fault."""
    good = "5300FFFFFFFF270F" + "4604270F00000000" + "4E04000000000000"
    on(saved="".join(BAD) + good + END_MARK * (197 - len(BAD)))
    for number in range(len(BAD)):
        send(f"CR{number:03}", "E024")
    for number, text in enumerate(("S00FFFFFFFF9999", "F49999", "N4")):
        send(f"CR{len(BAD) + number:03}", text)

    on(saved=END_MARK + BAD[0] + "4E01000000000000" + END_MARK * 196 + BAD[0])
    send("CR000", "S00000000000000")
    send("CR001", "E024")
    send("CR0010", "E002")
    send("CRI", "E024")  # 001: the last address is still 000
    send("CRI", "E024")
    send("CRI0", "E002")
    send("CR002", "N1")
    send("CRD", "E024")
    send("CRI", "S00000000000000")  # 003: the last address is still 002
    send("CR200", "S00000000000000")
    send("CRD", "E024")  # 199
    send("CRI", "80")  # 201: the last address is still 200
    send("CW001N2", "OK")
    send("CR001", "N2")


def bad_line_in_a_loop():
    """014 at that line, which is not counted; 006 on it does nothing."""
    on(saved="4601000200000000" + "5300000000050002" + BAD[7] + "4E01000000000000" + END_MARK * 196)
    send("CW210003", "OK", 1)
    send("CR213", "0002")
    tick()
    tick()  # line 002
    for address, value in ((201, "80"), (206, "05"), (211, "002"), (212, "014"), (213, "0000"), (201, "00")):
        send(f"CR{address}", value)
    send("CW209002", "OK")
    send("CW210006", "OK")
    for address, value in ((206, "05"), (210, "006"), (211, "002"), (212, "000")):
        send(f"CR{address}", value)
    send("CW210005", "OK")  # a start on it
    send("CR212", "014")
    empty(change(1, 0, 5, 0))


def bad_lines_at_edges():
    """Behind 400 For and Next lines; first; on line 199."""
    on(saved="4601018F00000000" + "4E01000000000000" + BAD[0] * 198)  # F10399
    send("CW210003", "OK", 400)
    send("CR212", "014")  # not 013: no For or Next is due
    send("CR211", "002")

    on(saved=BAD[1] + END_MARK * 197 + "5300000000000001" + BAD[1])
    press(1)
    send("CR212", "014")
    send("CR211", "000")
    send("CW209198", "OK")
    send("CW210005", "OK")
    tick()
    send("CR212", "014")  # not 009: 199 itself is Bad
    send("CR211", "199")
    empty()


def bad_lines_in_a_search():
    """The search for a Next passes over them, and a damaged Next is none."""
    on(saved="4601000100000000" + BAD[-1] + END_MARK * 198)  # 001 is almost a Next 1
    send("CW210003", "OK", 1)
    send("CR212", "007")
    send("CR211", "000")
    send("CW003N1", "OK")
    send("CW210003", "OK", 1)
    send("CR212", "014")
    send("CR211", "001")
    send("CW000F10000", "OK")
    send("CW210003", "OK", 1)  # a loop of none: on at 004
    send("CR212", "011")
    send("CR211", "004")
