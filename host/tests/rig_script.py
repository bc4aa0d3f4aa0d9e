"""rig_script.py: the words in which the trial script of rig.py is written. All that is done to what stands there is spelling: a command
becomes one `byte` line for each of its bytes, a reply its hex digits."""

END_MARK = "5300000000000000"
asked, answers = [], []
log_length = 32


def line(text, answer):
    asked.append(text)
    answers.append(answer)


def send(command, reply, lines=0):
    """A command and its 13; every byte but the 13 is answered by nothing."""
    for character in command:
        line(f"byte {ord(character)} 1600 1600 {log_length} 16", "0 0 0 -")
    text = (reply + "\r").encode().hex().upper()
    line(f"byte 13 1600 1600 {log_length} 16", f"0 {lines} {len(reply) + 1} {text}")


def tick(lines=0):
    line(f"tick 1600 {log_length}", f"0 {lines}")


def press(button, lines=0):
    line(f"press {button} 1600 {log_length}", f"0 {lines}")


def on(length=32, saved=END_MARK * 200):
    """Power-on with a saved copy; 01's worked points start from 200 end marks."""
    global log_length
    log_length = length
    line(f"set saved 0 {saved}", "ok")
    line(f"on 1600 1600 {length}", "0")


def change(cause, ticks, word, before):
    """The output word after the change and before it."""
    return f"1EE201{cause:02X}{ticks:08X}{word:08X}{before:08X}"


def gap(ticks, lost, word):
    """The tick of the first lost change, and the output word after the last."""
    return f"1EE20200{ticks:08X}{lost:08X}{word:08X}"


def empty(*records):
    count = 16 * len(records)
    line(f"empty {log_length} {count}", f"0 {count}")
    line(f"get dest 0 {count}", "".join(records) or "-")
