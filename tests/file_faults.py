"""file_faults.py: for a fault of a file, a line of examples/small.exam and a text that has this
fault in its place.

`./pages` shows them in docs/generated/FAULTS.md; run_program.py has the program judge each.
"""
LINES = {
    2: (1, "[Exam:4]"),
    3: (1, "[Exams:5]"),
    4: (2, "120 minutes, 1, 2"),
    5: (8, "31:04:2005, 14:00:00, 120, 0"),
    6: (8, "15:04:2005, 14:00, 120, 0"),
    7: (15, "1, BEFORE, 0"),
    8: (15, "1, AFTER, 4"),
    9: (19, "TWOINAROW,5"),
    10: (12, "3, 0, 1"),
}
