"""Which department owns which exam, as a CSV file says it."""
from __future__ import annotations

from .csv_tables import Column, Faults, Known, Wanted, table_of
from .late_file import Nearest
from .ledger import Ledger
from .names import words_of
from .session import CODE

COLUMNS = (Column("exam", ("code", *CODE)), Column("department", ("dept", "owner", "school")))
# What says that an exam has no owner.
NONE = ("0", "none")


def owners_in(content: bytes, file: str, ledger: Ledger, faults: Faults) -> list[dict[str, int]]:
    """Returns exams with their departments, by number; 0 is none. It counts only if there is no
    fault."""
    session = ledger.session()
    exams = Known({exam.code: number for number, exam in enumerate(session.exams)})
    departments = {tuple(words_of(name)): number for name, number in session.departments.items()}
    nearest = {"exam": Nearest({exam.code: exam.title for exam in session.exams}),
               "department": Nearest({name: f"department {number}"
                                      for name, number in session.departments.items()})}
    rows = table_of(content, file, COLUMNS, Wanted(), faults).rows
    owners = []
    for row in rows:
        code, name = row.id("exam"), row.text("department")
        exam = None if code is None else exams.number(code)
        department = 0 if name.casefold() in NONE else departments.get(tuple(words_of(name)))
        for column, text, number in (("exam", code, exam), ("department", name, department)):
            if text and number is None:
                row.fault(column, f"{text}: no such {column}{nearest[column].words(text)}")
        owners.append({"exam": exam or 0, "dept": department or 0})
    if not rows and not faults.lines:
        faults.add(file, None, None, "there is no line after the first")
    return owners
