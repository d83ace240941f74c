"""Computes the cases of runs over files that stop, and what they want, by the rules
(`reference.py`) and the formats alone. `computed` gives them all to the program of the crate
`up_test_service`, whose input has the first section.

A run's lines are answered once, and again after each of its beginnings, which has to be the same
each time. Each line writes, so a log that stops does so in each of them; a database file is read
while it is opened, and written while it is closed. A section that is wrong on purpose has to be
told as that.
"""
from uptane_tools.rows import expected_streams, row_texts
from uptane_tools.trial import each_line

AT, P1, ZEROS = expected_streams.AT, expected_streams.P1, 64 * "0"


def bench(counter: int) -> str:
    report = {
        "counter": counter, "ecu": "P1", "file": "factory.bin", "key": P1.hex(), "length": 0,
        "sha256": row_texts.NOTHING, "time": AT}
    line = {
        "at": AT, "counter": counter, "do": "bench", "key": P1.hex(), "primary": "P1", "reports": [
            report], "vehicle": "V1"}
    return row_texts.canonical(line)


WAYS = ("", ", in one run")
LINES = [expected_streams.FOUND, expected_streams.VEHICLE, bench(1), bench(2)]


def answers(lines: list[str]) -> list[str]:
    """What each line is answered, with the text of a reply behind its line."""
    desk = each_line.Desk()
    return [desk.answer(it.encode()).replace("\n", " ") for it in lines]


def steps() -> list[tuple]:
    """Each line with what it is answered the first time and again, and each view with what it
    shows.
    """
    once = answers(LINES)
    again = answers(LINES + LINES)[len(LINES):]
    for number in range(len(LINES) + 1):
        told = answers(LINES[:number] + LINES)[number:]
        assert told == again[:number] + once[number:], number
    assert answers(3 * LINES)[2 * len(LINES):] == again
    assert again == ["refused 9 AlreadyFounded", "already"] + once[2:]
    found = [("do " + line, first, second) for line, first, second in zip(LINES, once, again)]
    return found + [("version V1", "2"), ("installed P1", "factory.bin 0 " + row_texts.NOTHING)]


def wrong(steps: list[tuple[str, ...]], row: int,
          **other: str) -> tuple[list[tuple[str, ...]], str]:
    """The steps with another answer to one row, and what is told of it."""
    changed = list(steps)
    asked, first, again = (*steps[row - 1], "")[:3]
    changed[row - 1] = (asked, other.get("first",
                                         first), *([other.get("again", again)] if again else []))
    return changed, "row %d is answered %s" % (row, again if "again" in other else first)


def texts() -> tuple[str, str]:
    """The input and what is told."""
    good = steps()
    reply = good[3][2]
    controls = [("another answer", *wrong(good, 2, first="already")),
                ("another answer again", *wrong(good, 2, again="done")),
                ("another reply again",
                 *wrong(good, 4, again=reply.replace(reply.split('"sig":"')[1][:64], ZEROS))),
                ("another version", *wrong(good, 5, first="3")),
                ("another image", *wrong(good, 6, first="factory.bin 0 " + ZEROS))]
    given = section("two manifests", good)
    told = places("two manifests", len(LINES))
    for words, rows, says in controls:
        words = "wrong on purpose, " + words
        given += section(words, rows)
        told += "".join("%s%s, a %s that stops: after 0 calls %s\n" % (words, way, file, says)
                        for way in WAYS for file in ("log", "database file"))
    return given, told


def section(words: str, rows: list[tuple]) -> str:
    return "\n# %s\n" % words + "".join(" => ".join(row) + "\n" for row in rows)


def places(words: str, number: int) -> str:
    """Where each file stops: while it is opened, in the lines, and while it is closed. In one run
    no line is answered before the commit of all.
    """
    told = ""
    for way, rows in zip(WAYS, (number, 1)):
        lines = ["in row %d" % row for row in range(1, rows + 1)]
        log = ", ".join(["while it is opened", *lines, "while it is closed"])
        told += "%s%s, a log that stops: %s\n" % (words, way, log)
        told += ("%s%s, a database file that stops: while it is opened, while it is closed\n" %
                 (words, way))
    return told


def first() -> tuple[str, str]:
    """The same of the first section."""
    given, told = texts()
    return "\n# " + given.split("\n# ")[1] + "\n", "".join(told.splitlines(True)[:4])
