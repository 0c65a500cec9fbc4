"""The pages of the front in a browser, as their users read them: what is judged, in which order.

The cases are tables in pages_candidate, pages_registry, pages_editing, pages_conflicts,
pages_seats, pages_late, pages_department, pages_accessible and pages_all; front_page has what a
user does on a page and what a page shows.
"""
import shutil

import browser
from pages_all import (
    large_texts, list_of_sessions, other_labels, pages_for_everybody, pages_in_error, pictures,
    style_is_read)
from pages_accessible import readable_by_all
from pages_candidate import (
    calendar_file, candidates_page, moved_exam, next_exam_first, overlapping_exams, signing_on,
    states_of_exams)
from pages_conflicts import conflicts
from pages_department import (
    departments_files, departments_page, departments_places, pages_of_others)
from pages_editing import editing
from pages_late import late_changes
from pages_registry import (
    new_session, pictures_of_timetables, publishing, registrys_page, registrys_work, sections)
from pages_seats import printed, seats_after_changes, seats_of_candidates

# Of the small office, in this order: each begins with what those before it left.
PARTS = (candidates_page, next_exam_first, registrys_page, pictures_of_timetables,
         sections, seats_of_candidates,
         departments_page, pages_of_others, publishing, moved_exam, seats_after_changes,
         states_of_exams, overlapping_exams, conflicts, late_changes, registrys_work, style_is_read)


def judge(run, started, front, wide, sso, many, office, program, edited, folder):
    """Judges what Chromium shows; makes pictures, if there is a folder for them."""
    if not started:
        print(f"front: the pages are left out without {' and '.join(browser.missing())}")
        return
    if not shutil.which("pdftotext"):
        print("front: texts of printed pages are left out without poppler-utils")
    chromium = started()
    for part in PARTS:
        part(run, chromium, front)
    new_session(run, chromium, program)
    with edited() as office_with_places:
        editing(run, chromium, office_with_places)
        departments_places(run, chromium, office_with_places.front)
        departments_files(run, chromium, office_with_places.front)
    signing_on(run, chromium, front, sso)
    list_of_sessions(run, chromium, many)
    calendar_file(run, chromium, wide)
    printed(run, chromium, wide)
    other_labels(run, chromium, wide)
    pages_for_everybody(run, chromium, front)
    readable_by_all(run, chromium, front)
    large_texts(run, chromium, front)
    if folder:
        pictures(chromium, front, folder)
    pages_in_error(run, chromium, front, office)
