"""Further cases of the office over sockets, which run_serve.py sends and no sweep does: streams
that are no plain requests, edits and owners, and the texts of batches."""
from serve_cases import (
    COINCIDING, EMPTY, FROM_SOLUTION, NIGHTLY, NIGHTS, PENALTY, SEAT_HEAD, SHOWN, SMALL, SMALLEST,
    SOLUTION, VIOLATIONS, asked_by, bad_file, batch, broken, case, clear, cost, drafted,
    enrolled, error, forbidden, me, message, move, pending, place, publish, published, reply,
    report, swap, text)

ASKED = asked_by(99), me(99, 0)
REQUEST, LENGTH = error(400, "request"), error(413, "length")
DRAFT = message("GET", "/drafts/1")
# Questions for the violations of drafts 1 and 2, and replies.
NO_BREACH, OTHERS = ((message("GET", f"/drafts/{draft}/violations"), text("breaches 0\n"))
                     for draft in (1, 2))
AFTER, CAPACITY = (VIOLATIONS, text("breaches 1\nAfter 1 0\n")), text("breaches 1\nCapacity 0 0\n")
CANONICAL = SMALL.replace(b"\n", b"\r\n")
LOADED = reply(201, '{"exams":4,"pairs":6,"periods":4,"rooms":2}')


def fields(*lines):
    return "".join(f"{line}\r\n" for line in ("GET /me HTTP/1.1", *lines, "")).encode()


def longest_head():
    """A head of 16,384 bytes, empty lines in front of it included."""
    head = b"\r\n" * 160 + b"GET /me HTTP/1.1\r\nHost: a\r\nX-Caller: cand:99\r\nA: "
    return head.ljust(16_380, b"a") + b"\r\n\r\n"


# Streams of one message each, and what is replied.
STREAMS = {
    "a transfer encoding without a host": (fields("Transfer-Encoding: chunked"), REQUEST),
    "two hosts": (fields("Host: a", "Host: a"), REQUEST),
    "two lengths": (fields("Host: a", "Content-Length: 5", "Content-Length: 5") + b"abcde",
                    REQUEST),
    "two lengths in one field": (fields("Host: a", "Content-Length: 5, 5") + b"abcde", REQUEST),
    "an empty length": (fields("Host: a", "Content-Length:"), REQUEST),
    "a length with a sign": (fields("Host: a", "Content-Length: +5") + b"abcde", REQUEST),
    "two spaces in the first line": (b"GET  /me HTTP/1.1\r\nHost: a\r\n\r\n", REQUEST),
    "two CR": (b"GET /me HTTP/1.1\r\r\n\r\n", REQUEST),
    "two CR after empty lines": (b"\r\n\r\nGET /me HTTP/1.1\r\r\n\r\n", REQUEST),
    "a length beyond the limit": (fields("Host: a", "Content-Length: 4194305"), LENGTH),
    "a length of 23 digits": (fields("Host: a", f"Content-Length: {'9' * 23}"), LENGTH),
    "33 fields": (fields("Host: a", *["A: b"] * 32), REQUEST),
    "the longest head": (longest_head(), ASKED[1]),
    "a head that is a byte longer": (b"\n" + longest_head(), REQUEST),
    "two callers": (fields("Host: a", "X-Caller: office", "X-Caller: office"),
                    error(400, "caller")),
    "a body that is cut": (fields("Host: a", "Content-Length: 10") + b"123456789", b""),
    "the older HTTP, and no answer to what follows":
        (b"GET /me HTTP/1.0\r\nX-Caller: cand:99\r\n\r\nGET", ASKED[1]),
    "HEAD": (message("HEAD", "/me"), b"HTTP/1.1 405 Method Not Allowed\r\nAllow: GET\r\n\r\n"),
    "HEAD where an exam can go": (message("HEAD", "/drafts/1/exams/3/places"),
                                  b"HTTP/1.1 405 Method Not Allowed\r\nAllow: GET\r\n\r\n"),
    "an edit's path, to look": (message("GET", "/drafts/1/exams/3/place"),
                                error(405, "method", "POST")),
    "HEAD with a transfer encoding":
        (message("HEAD", "/me", caller=None, fields=["Transfer-Encoding: gzip"]),
         b"HTTP/1.1 501 Not Implemented\r\n\r\n"),
    "HEAD with a faulty field": (b"HEAD /me HTTP/1.1\r\nHost\r\n\r\n", REQUEST),
    "POST": (message("POST", "/me"), error(405, "method", "GET")),
}
# Values of Connection, and whether the next message is answered.
CONNECTIONS = {"close": False, "Close": False, "keep-alive ,\tCLOSE": False, "closed": True,
               "keep-alive": True}

# Three exams: students 100 to 399 sit exams 0 and 1, and of these 100 to 199 sit exam 2 too.
# Periods 0 to 2 are of one day, 3 is of the next.
CROWDED = "\n".join([
    "[Exams:3]", *(", ".join(map(str, [60, *range(100, end)])) for end in (400, 400, 200)),
    "[Periods:4]", "15:04:2005, 09:30:00, 60, 0", "15:04:2005, 12:00:00, 60, 0",
    "15:04:2005, 14:30:00, 60, 0", "16:04:2005, 09:30:00, 60, 0", "[Rooms:1]", "300, 0",
    "[PeriodHardConstraints]", "[RoomHardConstraints]", "[InstitutionalWeightings]", "TWOINAROW,7",
    "TWOINADAY,5", "PERIODSPREAD,2", ""]).encode()


# Three exams that nobody sits, one after another.
THREE = "\n".join([
    "[Exams:3]", *["60"] * 3, "[Periods:3]", "15:04:2005, 09:30:00, 60, 0",
    "15:04:2005, 12:00:00, 60, 0", "15:04:2005, 14:30:00, 60, 0", "[Rooms:1]", "9, 0",
    "[PeriodHardConstraints]", "[RoomHardConstraints]", "[InstitutionalWeightings]",
    "PERIODSPREAD,2", ""]).encode()
# The small session where candidate 1 sits only exam 3.
ONE_EXAM = SMALL.replace(b"120, 1, 2", b"120, 2")
# The small session with rules for exam 3: in one period with exam 2, not with exam 1; exam 2 has
# its room to itself.
RULED = SMALL.replace(b"1, AFTER, 0\n", b"1, AFTER, 0\n3, EXAM_COINCIDENCE, 2\n3, EXCLUSION, 1\n")
RULED = RULED.replace(b"[RoomHardConstraints]\n", b"[RoomHardConstraints]\n2, ROOM_EXCLUSIVE\n")


def owner(exam, dept):
    return message("PUT", f"/exams/{exam}/owner", b'{"dept":%d}' % dept)


def owned(exam, dept):
    return reply(200, '{"dept":%d,"exam":%d}' % (dept, exam))


def shown(penalty, *places):
    """A draft as it is shown; an exam without a place has None."""
    exams = ",".join('{"exam":%d,"period":%s,"room":%s}' % (exam, *(place or ("null", "null")))
                     for exam, place in enumerate(places))
    return reply(200, '{"draft":1,"exams":[%s],"penalty":%d}' % (exams, penalty))


def draft(number, body=b""):
    return message("PUT", f"/drafts/{number}", body)


def unplaced(exam):
    return reply(409, '{"error":"unplaced","exam":%d}' % exam)


def from_places(name, places, penalty, *exchanges):
    """A case of the session with rules for exam 3, which begins with a draft of these places."""
    return case(f"first_breach_by_rule, {name}", RULED, (draft(1, places), drafted(201, penalty)),
                *exchanges)


def batch_of(number, body):
    return message("PUT", f"/batches/{number}", body)


EDITS = [
    case("edit_refusals_in_order, of numbers and of exams that are not placed", SMALL,
         (EMPTY, drafted(201, 0)),
         (DRAFT, shown(0, None, None, None, None)),
         (place(0, 0, 0), drafted(200, 0)),
         (place(0, 4, 0), error(404, "number")),
         (swap(0, 1), error(409, "not-placed")),
         (swap(1, 1), error(409, "not-placed")),
         (swap(0, 9), error(404, "number")),
         (move(9, 0, 0), error(404, "number")),
         (clear(9), error(404, "number"))),
    case("swap, and its places", SMALL,
         (FROM_SOLUTION, drafted(201, 37)),
         (swap(1, 2), drafted(200, 30)),
         (DRAFT, shown(30, (0, 0), (3, 1), (1, 0), (2, 0)))),
    case("edits_name_their_exams", SMALL,
         (EMPTY, drafted(201, 0)),
         (place(0, 0, 0), drafted(200, 0)),
         (place(1, 1, 0), drafted(200, 8)),
         (swap(0, 1), broken("After", 1, 0)),
         (move(1, 2, 0), drafted(200, 16)),
         (clear(1), drafted(200, 0))),
    # Exam 2 costs its room; so does exam 0 in the place of exam 2, and in the same room in another
    # period. Exam 1 then costs student 2's row and spread.
    case("a draft that is edited, and its first exam without a place", SMALL,
         (EMPTY, drafted(201, 0)),
         (place(0, 0, 0), drafted(200, 0)),
         (place(2, 1, 1), drafted(200, 7)),
         (swap(0, 2), drafted(200, 7)),
         (move(0, 0, 1), drafted(200, 7)),
         (clear(2), drafted(200, 7)),
         (publish(), unplaced(1)),
         (place(1, 0, 0), broken("Clash", 0, 1)),
         (place(1, 1, 0), drafted(200, 15)),
         (publish(), unplaced(2))),
    case("edit_by_pairs", ONE_EXAM,
         (FROM_SOLUTION, drafted(201, 31)),
         (PENALTY, text(report(7, 0, 2, 0, 0, 15, 7, 31))),
         (move(3, 3, 1), drafted(200, 43)),
         (PENALTY, text(report(7, 0, 2, 10, 0, 10, 14, 43)))),
    # By periods: row 7 and spread 1 of student 2, day 5 and spread 1 of student 1, spread 1 of
    # student 3; periods 15, rooms 7.
    from_places("a room to itself", SOLUTION, 37,
                (move(3, 3, 1), broken("RoomExclusive", 2, 3))),
    # As two_exams_in_one_room. Without exam 0 row 7 and the spread of two pairs are less.
    from_places("another exam's room to itself", b"0, 0\n1, 0\n3, 1\n3, 1\n", 44,
                (clear(0), drafted(200, 35)), (place(0, 0, 0), drafted(200, 44)),
                (VIOLATIONS, text("breaches 1\nRoomExclusive 2 3\n"))),
    # Student 2's day and spread, student 1's row and spread, student 3's spread; periods 15, rooms
    # 14.
    from_places("a clash", b"0, 0\n2, 0\n3, 1\n1, 1\n", 44, (move(1, 0, 0), broken("Clash", 0, 1))),
    # As in capacity_names_every_exam.
    from_places("a coincidence beside others' breaches", b"0, 0\n0, 0\n3, 1\n2, 0\n", 39,
                (move(3, 1, 1), broken("Coincidence", 2, 3))),
    # The day and spread of students 2 and 3, student 1's spread; periods 15. Exam 3 has one of the
    # spread and 5 of the periods.
    from_places("the duration of one of two exams, before the clash of the other",
                b"0, 0\n2, 0\n0, 0\n3, 0\n", 28,
                (clear(3), drafted(200, 22)), (swap(1, 2), broken("Duration", 2, 2))),
    # The rows and spread of students 1 and 2, student 3's spread; mixed 10, periods 5, rooms 7.
    # Exam 2 has one of the spread, 5 and 7.
    from_places("an exam that is too late", b"0, 0\n1, 0\n3, 1\n1, 0\n", 39,
                (clear(2), drafted(200, 26)), (move(0, 3, 0), broken("After", 1, 0))),
    # Each student's spread; front load 4, periods 20, rooms 7. Exam 2 has as much as before.
    from_places("an exam that is too early", b"3, 0\n2, 0\n3, 1\n1, 0\n", 34,
                (clear(2), drafted(200, 21)), (move(1, 1, 0), broken("After", 1, 0))),
    # As after_is_broken.
    from_places("an exclusion beside others' breach", b"3, 0\n1, 0\n3, 1\n2, 0\n", 34,
                (clear(2), drafted(200, 21)), (move(3, 1, 0), broken("Exclusion", 1, 3))),
    # The small solution, and 7 for exam 1's room. Exam 0 has row 7, day 5 and two of the spread;
    # exam 2 has one of it, 5 and 7.
    from_places("a room that is full, before an exclusion", b"0, 0\n1, 1\n3, 1\n2, 0\n", 44,
                (clear(0), drafted(200, 30)), (clear(2), drafted(200, 17)),
                (move(3, 1, 1), broken("Capacity", 3, 3))),
    # Candidate 4 sits exams 0 and 2, two periods apart, until they withdraw from exam 0.
    case("pairs come and go, and exams share students", THREE,
         (batch(1, "9,0,add", "4,0,add", "9,0,add", "4,2,add", "1,0,add"), enrolled(1, 4, 0, 1)),
         (batch(2, "4,3,add"), error(404, "number")),
         (draft(1, b"0, 0\n1, 0\n2, 0\n"), drafted(201, 1)),
         (publish(), published(3, 1)),
         (SHOWN[3], text(f"{SEAT_HEAD}1,0,0,0,1\n4,0,0,0,2\n9,0,0,0,3\n4,2,2,0,1\n")),
         (batch(3, "4,0,drop", "4,0,drop", "4,1,drop"), enrolled(3, 0, 1, 2)),
         (PENALTY, text(report(*[0] * 8))),
         (publish(), published(1, 0)),
         (SHOWN[3], text(f"{SEAT_HEAD}1,0,0,0,1\n9,0,0,0,3\n4,2,2,0,1\n")),
         (SHOWN[2], text("per room    used     cap  exams\n  0    0       2       9  0\n"
                         "  1    0       0       9  1\n  2    0       1       9  2\n"))),
    # As in capacity_names_every_exam: without exam 2 the penalty is 13 less, without exam 3 16.
    case("exams that are not placed break nothing", SMALL,
         (draft(1, b"0, 0\n0, 0\n3, 1\n2, 0\n"), drafted(201, 39)),
         (clear(2), drafted(200, 26)),
         (clear(3), drafted(200, 10)),
         (VIOLATIONS, text("breaches 4\nClash 0 1\nCapacity 0 0\nCapacity 1 1\nAfter 1 0\n"))),
    # Row 7, day 5, spread 3, front load 4, periods 15 and rooms 7. Exam 1 has 7 and 2 of these,
    # then exam 2 5 and 7, then exam 3 5 and 1.
    case("exams that are not placed break nothing, beside one that is too long", SMALL,
         (draft(1, b"2, 0\n1, 0\n3, 1\n0, 0\n"), drafted(201, 41)),
         (clear(1), drafted(200, 32)),
         (clear(2), drafted(200, 20)),
         (clear(3), drafted(200, 14)),
         (VIOLATIONS, text("breaches 1\nDuration 0 0\n"))),
    case("coincidence_by_enrolment, edits of its two exams", COINCIDING,
         (FROM_SOLUTION, drafted(201, 37)),
         (batch(1, "2,1,drop"), enrolled(1, 0, 1, 0)),
         (move(3, 3, 1), drafted(200, 36)),
         (move(0, 0, 1), broken("Coincidence", 0, 1)),
         (clear(0), drafted(200, 35))),
    # Exams 0 and 1 share 300 students, and exam 2 shares 100 with either. By the periods of exams
    # 0, 1 and 2, what each two of them cost:
    #   0, 1, 3: 0 and 1 in a row and in the spread, 1 and 2 in the spread: 300 * (7 + 1) + 100
    #   0, 2, 3: 0 and 1 in a day and in the spread, 1 and 2 in the spread: 300 * (5 + 1) + 100
    #   -, 2, 3: 1 and 2 in the spread: 100
    #   1, 2, 3: 0 and 1 in a row and in the spread, the others in it: 300 * (7 + 1) + 100 + 100
    #   3, 2, 1: 1 and 2 in a row and in the spread, the others in it: 100 * (7 + 1) + 300 + 100
    case("edits of crowded exams", None,
         (message("PUT", "/instance", CROWDED),
          reply(201, '{"exams":3,"pairs":700,"periods":4,"rooms":1}')),
         (draft(1, b"0, 0\n1, 0\n3, 0\n"), drafted(201, 2500)),
         (move(1, 2, 0), drafted(200, 1900)),
         (clear(0), drafted(200, 100)),
         (place(0, 1, 0), drafted(200, 2600)),
         (swap(0, 2), drafted(200, 1200)),
         (draft(2, b"3, 0\n2, 0\n1, 0\n"), reply(201, '{"draft":2,"penalty":1200}'))),
    case("drafts come and go", None,
         (message("PUT", "/instance", SMALLEST),
          reply(201, '{"exams":1,"pairs":0,"periods":1,"rooms":1}')),
         (draft(8), reply(201, '{"draft":8,"penalty":0}')),
         (message("DELETE", "/drafts/8"), reply(200, '{"draft":8}')),
         (draft(8, b"0,0"), reply(201, '{"draft":8,"penalty":0}'))),
    case("a publication of an exam that nobody sits", None,
         (message("PUT", "/instance", SMALLEST),
          reply(201, '{"exams":1,"pairs":0,"periods":1,"rooms":1}')),
         (draft(1, b"0,0"), drafted(201, 0)),
         (publish(), published(0, 0)),
         (message("GET", "/publication/rooms"),
          text("per room    used     cap  exams\n  0    0       0       0  0\n")),
         (message("GET", "/publication/seats"), text("student,exam,period,room,seat\n"))),
    # Without candidate 3 in exam 1 the spread is 1 and the night 6 less. Exam 2 in period 0 costs
    # that candidate 5 for the day instead of the night, and nothing for the period instead of 5.
    case("nights of a draft and of a publication", None,
         (message("PUT", "/instance", NIGHTS), LOADED),
         (message("GET", "/instance"), text(NIGHTS.replace(b"\n", b"\r\n"))),
         (message("PUT", "/drafts/1", NIGHTLY), drafted(201, 43)),
         (PENALTY, text(report(7, 5, 3, 0, 0, 15, 7, 43, night=6))),
         (publish(), published(3, 43)),
         (SHOWN[1], text(report(7, 5, 3, 0, 0, 15, 7, 43, night=6))),
         (asked_by(2, "/penalty"), cost(0, 5, 1)),
         (asked_by(3, "/penalty"), cost(0, 0, 1, 6)),
         (batch(1, "3,1,drop"), enrolled(1, 0, 1, 0)),
         (PENALTY, text(report(7, 5, 2, 0, 0, 15, 7, 36))),
         (asked_by(3, "/penalty"), cost(0, 0, 1, 6)),
         (batch(2, "3,1,add"), enrolled(2, 1, 0, 0)),
         (PENALTY, text(report(7, 5, 3, 0, 0, 15, 7, 43, night=6))),
         (move(2, 0, 1), drafted(200, 37)),
         (PENALTY, text(report(7, 10, 3, 0, 0, 10, 7, 37))),
         (publish(), published(1, 37)),
         (SHOWN[1], text(report(7, 10, 3, 0, 0, 10, 7, 37))),
         (asked_by(3, "/penalty"), cost(0, 5, 1)),
         (move(2, 3, 1), drafted(200, 43)),
         (publish(), published(1, 43)),
         (SHOWN[1], text(report(7, 5, 3, 0, 0, 15, 7, 43, night=6))),
         (asked_by(3, "/penalty"), cost(0, 0, 1, 6))),
    case("owners come and go", None,
         (owner(0, 3), error(409, "not-loaded")),
         (place(0, 0, 0, "dept:3"), forbidden("P3")),
         (message("PUT", "/instance", SMALL), LOADED),
         (owner(4, 3), error(404, "number")),
         (EMPTY, drafted(201, 0)),
         (owner(0, 3), owned(0, 3)),
         (place(0, 0, 0, "dept:3"), drafted(200, 0)),
         (owner(0, 999), owned(0, 999)),
         (place(0, 0, 0, "dept:3"), forbidden("P3")),
         (place(0, 0, 0, "dept:999"), error(409, "already-placed")),
         (owner(0, 0), owned(0, 0)),
         (place(0, 0, 0, "dept:999"), forbidden("P3"))),
    case("violations, asked again after each change", SMALL,
         (message("PUT", "/drafts/1", b"3, 0\n1, 0\n3, 1\n2, 0\n"), drafted(201, 34)),
         (message("PUT", "/drafts/2", SOLUTION), reply(201, '{"draft":2,"penalty":37}')),
         *[AFTER] * 2, *[OTHERS] * 2, AFTER,
         # Its students' row, 7, for a period of 5 and a room of 7.
         (move(2, 0, 0), drafted(200, 29)), AFTER,
         # The row is student 1's, not student 3's, and the largest exam is not late.
         (swap(0, 1), drafted(200, 25)), *[NO_BREACH] * 2,
         # Four sit exam 0, in the room of three.
         (batch(1, "7,0,add", "8,0,add"), enrolled(1, 2, 0, 0)),
         *[(VIOLATIONS, CAPACITY)] * 2, (OTHERS[0], CAPACITY),
         (batch(2, "9,0,drop"), enrolled(2, 0, 0, 1)), (VIOLATIONS, CAPACITY),
         (clear(0), drafted(200, 16)), *[NO_BREACH] * 2, (OTHERS[0], CAPACITY),
         (message("DELETE", "/drafts/1"), reply(200, '{"draft":1}')),
         (VIOLATIONS, error(404, "draft")), (OTHERS[0], CAPACITY),
         (EMPTY, drafted(201, 0)), NO_BREACH),
]

HEADER = b"student,exam,action\n"
# Texts of one batch: 1 is enrolled in exam 1, twice, and 9 withdraws from exam 2.
ALIKE = [
    HEADER + b"1,1,add\n1,1,add\n9,2,drop",
    HEADER + b"1,1,add\n1,1,add\n9,2,drop\n",
    b"student,exam,action\r\n1,1,add\r\n\r\n1,1,add\r\n9,2,drop\r\n\r\n",
    b" Student,EXAM\t, action ,\n 1 ,\t1,ADD\n01,0001, Add,\n9,2,dRoP",
    b'"student",exam,action\n"1",1,"add"\n1," 1",add\n9,2,drop',
    b'\xef\xbb\xbfstudent,exam,action,\n1,1,add,\n1,1,add,""\n9,2,drop',
]
# Texts of no batch: the number of the first fault, and its line.
FAULTY = {
    b"": (11, 1), b"\n\n": (11, 1), b"1,1,add": (11, 1), b"exam,student,action\n1,1,add": (11, 1),
    b"student,exam,action,note": (11, 1), b"student,exam\n1,1,add": (11, 1),
    HEADER + b"x,2000,move": (4, 2), HEADER + b",1,add": (4, 2),
    HEADER + b"1000000000,x,add": (8, 2),
    HEADER + b"1,-1,add": (4, 2), HEADER + b"1,2000,move": (8, 2), HEADER + b"1,1,move,x": (7, 2),
    HEADER + b"1,1": (7, 2), HEADER + b"1,1,add,x": (10, 2), HEADER + b"1,1,add,,": (10, 2),
    HEADER + b"\n1,1,add\n\n1,1,": (7, 3), HEADER + b" \n1,1,add": (4, 2), HEADER + b'""': (4, 2),
    HEADER + b'"1\n",1,add': (4, 2), b"\xef\xbb\xbf": (11, 1),
}
BATCHES = [
    # Before each text 1 isn't enrolled in exam 1, and 9 is enrolled in exam 2.
    case("texts of one batch of which each line acts", SMALL,
         *(exchange for number, body in enumerate(ALIKE, 1) for exchange in (
             (batch(100 + number, "1,1,drop", "9,2,add"),
              enrolled(100 + number, 1, *((1, 0) if number > 1 else (0, 1)))),
             (asked_by(1), me(1, 0, pending(0), pending(3))), (asked_by(9), me(9, 0, pending(2))),
             (batch_of(number, body), enrolled(number, 1, 1, 1)),
             (asked_by(1), me(1, 0, pending(0), pending(1), pending(3))),
             (asked_by(9), me(9, 0))))),
    case("texts of one batch", SMALL,
         *((batch_of(number, body), enrolled(number, 0 if number else 1, 0, 3 if number else 2))
           for number, body in enumerate(ALIKE)),
         (batch_of(6, b"student,exam,action"), enrolled(6, 0, 0, 0))),
    case("the greatest numbers of a batch", SMALL,
         (batch_of(1, HEADER + b"999999999,1999,drop"), error(404, "number")),
         (batch_of(1, HEADER + b"999999999,3,add"), enrolled(1, 1, 0, 0)),
         (asked_by(999_999_999, "/exam/0"), error(404, "exam"))),
    case("the first fault of a batch", SMALL,
         *((batch_of(1, body), bad_file(*fault)) for body, fault in FAULTY.items())),
]

# Further lines of weights, and the lines that the program writes for them.
WEIGHTS = {
    b"": b"", b"OVERNIGHT,6\r\n": b"OVERNIGHT,6\r\n", b"overnight , 6": b"OVERNIGHT,6\r\n",
    b"OVERNIGHT,100000\n": b"OVERNIGHT,100000\r\n", b"OVERNIGHT,0\n": b"",
}
# Sessions, and their texts as the program writes them.
WRITTEN = {
    **{SMALL + more: CANONICAL + written for more, written in WEIGHTS.items()},
    SMALL.replace(b"TWOINAROW", b"OVERNIGHT,6\nTWOINAROW"): CANONICAL + b"OVERNIGHT,6\r\n",
}

FURTHER = [
    *(case(name, SMALL, exchange) for name, exchange in STREAMS.items()),
    *(case(f"Connection: {value}", SMALL,
           (message("GET", "/me", caller="cand:99", fields=[f"Connection: {value}"]), ASKED[1]),
           (ASKED[0], ASKED[1] if goes_on else b""))
      for value, goes_on in CONNECTIONS.items()),
    *EDITS, *BATCHES,
    *(case(f"a session as it is written, {number}", None,
           (message("PUT", "/instance", body), LOADED),
           (message("GET", "/instance"), text(written)))
      for number, (body, written) in enumerate(WRITTEN.items())),
]
