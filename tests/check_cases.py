"""Small instances and solutions with known answers: what `check` prints of them.

Each answer follows from the rules by hand: a report by docs/RULES.md, a fault by
docs/FORMATS.md."""
import pathlib

TOP = pathlib.Path(__file__).resolve().parent.parent

SMALL = (TOP / "examples" / "small.exam").read_text()
SMALLEST = (TOP / "examples" / "smallest.exam").read_text()
PLACED = (TOP / "examples" / "small.sol").read_text()
TOGETHER = "0, 0\n1, 0\n3, 1\n3, 1\n"
EARLY = "3, 0\n1, 0\n3, 1\n2, 0\n"
PARTS = ["two in a row", "two in a day", "period spread", "over night", "mixed durations",
         "front load", "period penalty", "room penalty"]
EXCLUSIONS = "3, EXCLUSION, 2\n2, EXCLUSION, 2\n"
ALONE = "2, ROOM_EXCLUSIVE\n"
COINCIDENCE = "1, EXAM_COINCIDENCE, 0\n"


def with_line(number, line):
    """The small instance with another line in the place of this one; lines count from 1."""
    lines = SMALL.splitlines()
    lines[number - 1] = line
    return "\n".join(lines) + "\n"


def with_rules(period_rules, room_rules=""):
    text = SMALL.replace("1, AFTER, 0\n", "1, AFTER, 0\n" + period_rules)
    return text.replace("[RoomHardConstraints]\n", "[RoomHardConstraints]\n" + room_rules)


def up_to(text, length=0):
    """The small instance, cut this many bytes after the beginning of this text."""
    return SMALL[:SMALL.index(text) + length]


def on_dates(third, fourth):
    """The small instance with its last two periods on these dates, and with 6 for a night."""
    lines = SMALL.splitlines()
    lines[8:10] = f"{third}, 17:00:00, 90, 10", f"{fourth}, 09:30:00, 120, 5"
    return "\n".join([*lines, "OVERNIGHT,6", ""])


# The last period is on the day after the others; or the third is, and the last two days later.
NIGHTS = on_dates("15:04:2005", "16:04:2005")
SATURDAY = on_dates("16:04:2005", "18:04:2005")

# Dates of the last two periods, and what over night costs if one student sits an exam in each.
DATES = (("31:12:2004", "01:01:2005", 6), ("01:01:2005", "31:12:2004", 6),
         ("28:02:2005", "01:03:2005", 6), ("28:02:2004", "01:03:2004", 0),
         ("28:02:2004", "29:02:2004", 6), ("29:02:2004", "01:03:2004", 6),
         ("28:02:1900", "01:03:1900", 6), ("28:02:2000", "01:03:2000", 0),
         ("30:04:2005", "01:05:2005", 6), ("15:04:2005", "16:05:2005", 0),
         ("15:04:2005", "17:04:2005", 0), ("31:12:9999", "01:01:0001", 0))

# name: instance, solution, breaches, the eight penalties
REPORTS = {
    "placed well": (SMALL, PLACED, [], [7, 5, 3, 0, 0, 0, 15, 7]),
    "two in one room": (SMALL, TOGETHER, [], [7, 0, 3, 0, 10, 0, 10, 14]),
    "CR LF, and an exam with no student":
        (SMALL.replace("60, 1\n", "60\n").replace("\n", "\r\n") + "\r\n\r\n", PLACED, [],
         [7, 0, 2, 0, 0, 0, 15, 7]),
    "too early": (SMALL, EARLY, ["After 1 0"], [0, 0, 3, 0, 0, 4, 20, 7]),
    "smallest": (SMALLEST, "0,0", [], [0] * 8),
    "clash": (SMALL, "0, 0\n0, 0\n3, 1\n2, 0\n",
              ["Clash 0 1", "Capacity 0 0", "Capacity 1 1", "After 1 0"],
              [0, 5, 2, 0, 10, 0, 15, 7]),
    "not alone": (with_rules(EXCLUSIONS, ALONE), TOGETHER,
                  ["Exclusion 2 3", "RoomExclusive 2 3"], [7, 0, 3, 0, 10, 0, 10, 14]),
    "not alone, by lines that come twice":
        (with_rules(EXCLUSIONS * 2, ALONE * 2), TOGETHER,
         ["Exclusion 2 3", "RoomExclusive 2 3"], [7, 0, 3, 0, 10, 0, 10, 14]),
    "all exams at the front":
        (with_line(22, "FRONTLOAD,100000,100000,4"), PLACED, [], [7, 5, 3, 0, 0, 16, 15, 7]),
    "three exams at the front":
        (with_line(22, "FRONTLOAD,3,2,4"), PLACED, [], [7, 5, 3, 0, 0, 4, 15, 7]),
    "four exams at the front":
        (with_line(22, "FRONTLOAD,4,2,4"), PLACED, [], [7, 5, 3, 0, 0, 8, 15, 7]),
    "no exams at the front":
        (with_line(22, "FRONTLOAD,0,100000,4"), PLACED, [], [7, 5, 3, 0, 0, 0, 15, 7]),
    "no periods at the end":
        (with_line(22, "FRONTLOAD,100000,0,4"), PLACED, [], [7, 5, 3, 0, 0, 0, 15, 7]),
    "a shorter spread": (SMALL.replace("PERIODSPREAD,3", "PERIODSPREAD,2"), TOGETHER, [],
                         [7, 0, 2, 0, 10, 0, 10, 14]),
    "the largest room": (with_line(12, "100000, 0"), PLACED, [], [7, 5, 3, 0, 0, 0, 15, 7]),
    "the greatest student number":
        (with_line(2, "120, 999999999, 2"), PLACED, [], [7, 0, 2, 0, 0, 0, 15, 7]),
    "cut after the last header, so that all weights are 0":
        (up_to("TWOINAROW"), PLACED, [], [0, 0, 0, 0, 0, 0, 15, 7]),
    "without the last line end": (SMALL[:-1], PLACED, [], [7, 5, 3, 0, 0, 0, 15, 7]),
    "a coincidence of exams that share a student":
        (with_rules(COINCIDENCE), PLACED, [], [7, 5, 3, 0, 0, 0, 15, 7]),
    "a coincidence of exams that share none":
        (with_rules(COINCIDENCE).replace("90, 2, 3", "90, 3"), PLACED, ["Coincidence 0 1"],
         [0, 5, 2, 0, 0, 0, 15, 7]),
    "over night": (NIGHTS, EARLY, ["After 1 0"], [0, 0, 3, 6, 0, 4, 20, 7]),
    "over the weekend": (SMALL + "OVERNIGHT,6\n", EARLY, ["After 1 0"], [0, 0, 3, 0, 0, 4, 20, 7]),
    "the weight of nights in small letters, as the first one":
        (NIGHTS.replace("OVERNIGHT,6\n", "").replace("TWOINAROW", "overnight , 6\nTWOINAROW"),
         EARLY, ["After 1 0"], [0, 0, 3, 6, 0, 4, 20, 7]),
    "a weight of nights of 0":
        (NIGHTS.replace("OVERNIGHT,6", "OVERNIGHT,0"), EARLY, ["After 1 0"],
         [0, 0, 3, 0, 0, 4, 20, 7]),
    # Exams 0 and 3 are in a row, and exam 1 is in a day with exam 0 and with exam 2.
    "all periods on one date, with a weight of nights":
        (on_dates("15:04:2005", "15:04:2005"), EARLY, ["After 1 0"],
         [7, 10, 3, 0, 0, 4, 20, 7]),
    "a night before the third period": (SATURDAY, PLACED, [], [7, 0, 3, 0, 0, 0, 15, 7]),
    # Exam 2, after exam 1 of the day before, which candidate 3 sits too.
    "a night before the third period, with an exam after it":
        (SATURDAY, PLACED.replace("3, 1", "2, 1"), ["Duration 2 2"], [7, 0, 3, 6, 0, 0, 20, 7]),
    **{f"periods on {third} and {fourth}":
       (on_dates(third, fourth), EARLY, ["After 1 0"], [0, 0, 3, night, 0, 4, 20, 7])
       for third, fourth, night in DATES},
}

HUNDRED_PAIRS = "1, " + ", ".join(map(str, range(100)))
TOO_MANY_PAIRS = ("[Exams:2000]\n" + f"{HUNDRED_PAIRS}\n" * 1_999 + f"{HUNDRED_PAIRS}, 100\n"
                  + SMALLEST[SMALLEST.index("[Periods"):])

# name: instance, solution, what is said of them
FAULTS = {
    "a wrong count": (SMALL.replace("[Exams:4]", "[Exams:5]"), PLACED, "instance line 1: fault 3"),
    "no such day": (with_line(8, "31:04:2005, 14:00:00, 120, 0"), PLACED,
                    "instance line 8: fault 5"),
    "cut in a time": (up_to("15:04:2005, 14:0", 16), PLACED, "instance line 6: fault 3"),
    "cut after the rooms": (up_to("[PeriodHard"), PLACED, "instance line 14: fault 2"),
    "cut after a word": (up_to("TWOINADAY", 9), PLACED, "instance line 19: fault 4"),
    "nothing": ("", PLACED, "instance line 1: fault 2"),
    "too long": (SMALL.ljust(4_194_305), PLACED, "instance line 0: fault 1"),
    "too long, of blanks": (" " * 4_194_305, PLACED, "instance line 0: fault 1"),
    "too many exams": (with_line(1, "[Exams:2001]"), PLACED, "instance line 1: fault 8"),
    "no exams": (with_line(1, "[Exams:0]"), PLACED, "instance line 1: fault 8"),
    "no periods": (with_line(6, "[Periods:0]"), PLACED, "instance line 6: fault 8"),
    "a room too large": (with_line(12, "100001, 0"), PLACED, "instance line 12: fault 8"),
    "a bracket too many": (with_line(1, "[Exams:4]]"), PLACED, "instance line 1: fault 10"),
    "a colon too many": (with_line(1, "[Exams::4]"), PLACED, "instance line 1: fault 4"),
    "a header with no colon": (with_line(1, "[Exams 4]"), PLACED, "instance line 1: fault 2"),
    "no such hour": (with_line(8, "15:04:2005, 24:00:00, 120, 0"), PLACED,
                     "instance line 8: fault 6"),
    "a third number of a room": (with_line(12, "3, 0, 1"), PLACED, "instance line 12: fault 10"),
    "no such rule": (with_line(15, "1, BEFORE, 0"), PLACED, "instance line 15: fault 7"),
    "a rule on no exam": (with_line(15, "1, AFTER, 4"), PLACED, "instance line 15: fault 8"),
    "a weighting twice": (with_line(20, "TWOINAROW,5"), PLACED, "instance line 20: fault 9"),
    "the weight of nights twice": (SMALL + "OVERNIGHT,6\n" * 2, PLACED,
                                   "instance line 24: fault 9"),
    "a weight of nights too large": (SMALL + "OVERNIGHT,100001\n", PLACED,
                                     "instance line 23: fault 8"),
    "a weight of nights with no number": (SMALL + "OVERNIGHT\n", PLACED,
                                          "instance line 23: fault 4"),
    "a weight of nights with two numbers": (SMALL + "OVERNIGHT,6,7\n", PLACED,
                                            "instance line 23: fault 10"),
    "a word that begins as the weight of nights": (SMALL + "OVERNIGHTS,6\n", PLACED,
                                                   "instance line 23: fault 7"),
    "a seventh header": (with_line(22, "[FRONTLOAD]"), PLACED, "instance line 22: fault 10"),
    "a student number": (SMALL.replace("120, 1, 2", "120, 1, 1000000000"), PLACED,
                         "instance line 2: fault 8"),
    "cut in the first header": (SMALL[:3], PLACED, "instance line 1: fault 2"),
    "cut in a header": (up_to("[PeriodHardConstraints", 22), PLACED, "instance line 14: fault 2"),
    "cut in a word": (up_to("FRONTLOAD", 5), PLACED, "instance line 22: fault 7"),
    "cut after a comma": (up_to("FRONTLOAD,1,2,", 14), PLACED, "instance line 22: fault 4"),
    "too many pairs": (TOO_MANY_PAIRS, "", "instance line 2001: fault 8"),
    "three lines": (SMALL, "".join(PLACED.splitlines(True)[:3]), "solution line 4: fault 3"),
    "five lines": (SMALL, PLACED + "0, 0\n", "solution line 5: fault 3"),
    "a word after a blank line": (SMALL, PLACED + "\nx", "solution line 6: fault 3"),
    "no such period": (SMALL, PLACED.replace("1, 0", "4, 0"), "solution line 2: fault 8"),
    "a sign": (SMALL, PLACED.replace("1, 0", "-1, -1"), "solution line 2: fault 4"),
    "a single field": (SMALL, PLACED.replace("1, 0", "0"), "solution line 2: fault 4"),
    "a third field": (SMALL, PLACED.replace("1, 0", "0, 0, 0"), "solution line 2: fault 10"),
}
