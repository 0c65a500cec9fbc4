"""Messages to the office and the bytes that it replies: the worked examples, and others that many
tests ask."""
import json
import pathlib
from collections import namedtuple

EXAMPLES = pathlib.Path(__file__).resolve().parent.parent / "examples"
SMALL, SOLUTION, SMALLEST = ((EXAMPLES / name).read_bytes()
                             for name in ("small.exam", "small.sol", "smallest.exam"))
# One hundred students sit each of 2,000 exams: as many enrolments as there may be.
MANY = b"[Exams:2000]\n" + b"1, %s\n" % b", ".join(b"%d" % n for n in range(100)) * 2_000 + (
    b"[Periods:1]\n01:01:2000, 00:00:00, 1, 0\n[Rooms:1]\n1, 0\n"
    b"[PeriodHardConstraints]\n[RoomHardConstraints]\n[InstitutionalWeightings]\n")
PHRASES = {200: "OK", 201: "Created", 400: "Bad Request", 403: "Forbidden", 404: "Not Found",
           405: "Method Not Allowed", 409: "Conflict", 413: "Payload Too Large",
           501: "Not Implemented", 503: "Service Unavailable"}

# What a client asks, in messages, and the bytes that come back; `start` is the file that is loaded.
Case = namedtuple("Case", "name start asked replies")


def message(method, path, body=b"", caller="office", fields=()):
    lines = [f"{method} {path} HTTP/1.1", "Host: office"]
    lines += [f"X-Caller: {caller}"] if caller else []
    lines += [f"Content-Length: {len(body)}"] if body else []
    return "".join(f"{line}\r\n" for line in [*lines, *fields, ""]).encode() + body


def reply(status, body, kind="application/json", allow=None):
    body = body.encode() if isinstance(body, str) else body
    fields = [f"HTTP/1.1 {status} {PHRASES[status]}", f"Content-Type: {kind}"]
    fields += [f"Allow: {allow}"] if allow else []
    fields += [f"Content-Length: {len(body)}", ""]
    return "".join(f"{field}\r\n" for field in fields).encode() + body


def text(body):
    return reply(200, body, "text/plain")


def error(status, what, allow=None):
    return reply(status, '{"error":"%s"}' % what, allow=allow)


def broken(rule, exam, other):
    return reply(409, '{"error":"broken","exam":%d,"other":%d,"rule":"%s"}' % (exam, other, rule))


def forbidden(rule):
    return reply(403, '{"error":"forbidden","rule":"%s"}' % rule)


def bad_file(fault, line):
    return reply(400, '{"error":"file","fault":%d,"line":%d}' % (fault, line))


def drafted(status, penalty):
    return reply(status, '{"draft":1,"penalty":%d}' % penalty)


def at(period, room):
    return b'{"period":%d,"room":%d}' % (period, room)


def place(exam, period, room, caller="office"):
    return message("POST", f"/drafts/1/exams/{exam}/place", at(period, room), caller)


def move(exam, period, room):
    return message("POST", f"/drafts/1/exams/{exam}/move", at(period, room))


def swap(exam, other, caller="office"):
    return message("POST", f"/drafts/1/swap/{exam}/{other}", caller=caller)


def clear(exam):
    return message("DELETE", f"/drafts/1/exams/{exam}")


def publish(draft=1):
    return message("POST", f"/drafts/{draft}/publish")


def published(changed, penalty):
    return reply(200, '{"changed":%d,"draft":1,"penalty":%d}' % (changed, penalty))


def batch_text(*lines):
    return "".join(f"{line}\n" for line in ("student,exam,action", *lines)).encode()


def batch(number, *lines):
    return message("PUT", f"/batches/{number}", batch_text(*lines))


def enrolled(number, added, dropped, unchanged):
    return reply(200, '{"added":%d,"batch":%d,"dropped":%d,"unchanged":%d}'
                 % (added, number, dropped, unchanged))


def asked_by(candidate, page=""):
    return message("GET", f"/me{page}", caller=f"cand:{candidate}")


def shown_exam(exam, date=None, start=None, period=None, room=None, seat=None, state="seated"):
    """One of a candidate's exams, as the office writes it."""
    return json.dumps({"date": date, "exam": exam, "period": period, "room": room, "seat": seat,
                       "start": start, "state": state}, separators=(",", ":"))


def pending(exam):
    return shown_exam(exam, state="pending")


def me(candidate, penalty, *exams):
    return reply(200, '{"candidate":%d,"exams":[%s],"penalty":%d}'
                 % (candidate, ",".join(exams), penalty))


def cost(row, day, spread, night=0):
    return reply(200, '{"day":%d,"night":%d,"penalty":%d,"row":%d,"spread":%d}'
                 % (day, night, row + day + spread + night, row, spread))


def report(row, day, spread, *others, night=0):
    names = ("two in a row", "two in a day", "period spread", "over night", "mixed durations",
             "front load", "period penalty", "room penalty", "total")
    parts = (row, day, spread, night, *others)
    return "".join(f"{name} {part}\n" for name, part in zip(names, parts, strict=True))


EMPTY, FROM_SOLUTION = message("PUT", "/drafts/1"), message("PUT", "/drafts/1", SOLUTION)
PENALTY, VIOLATIONS = message("GET", "/drafts/1/penalty"), message("GET", "/drafts/1/violations")
PLACES = ('{"draft":1,"exams":[{"exam":0,"period":0,"room":0},{"exam":1,"period":1,"room":0},'
          '{"exam":2,"period":3,"room":1},{"exam":3,"period":2,"room":0}],"penalty":37}')

# Where exam 3 can go from the small solution, as RULES.md works out by hand.
PLACES_OF_3 = """period,room,penalty,rule,exam,other
0,0,,Clash,0,3
0,1,,Clash,0,3
1,0,39,,,
1,1,36,,,
2,0,37,,,
2,1,44,,,
3,0,27,,,
3,1,44,,,
"""


def places_of(exam, caller="office"):
    return message("GET", f"/drafts/1/exams/{exam}/places", caller=caller)


# The small solution published, and what its candidates see of it.
PUBLISHED = (FROM_SOLUTION, drafted(201, 37)), (publish(), published(3, 37))
UNPLACED = (EMPTY, drafted(201, 0)), (publish(), reply(409, '{"error":"unplaced","exam":0}'))
FRIDAY, MONDAY = "2005-04-15", "2005-04-18"
FIRST = shown_exam(0, FRIDAY, "09:30:00", 0, 0, 1), shown_exam(3, FRIDAY, "17:00:00", 2, 0, 1)
SECOND = shown_exam(0, FRIDAY, "09:30:00", 0, 0, 2), shown_exam(1, FRIDAY, "14:00:00", 1, 0, 1)
THIRD = shown_exam(1, FRIDAY, "14:00:00", 1, 0, 2), shown_exam(2, MONDAY, "09:30:00", 3, 1, 1)
# Candidate 1 once exam 3 has moved to the place of exam 2.
FIRST_MOVED = FIRST[0], shown_exam(3, MONDAY, "09:30:00", 3, 1, 2)
# Candidate 3 once exam 2 has moved into the period of exam 0, and into the other room.
THIRD_MOVED = THIRD[0], shown_exam(2, FRIDAY, "09:30:00", 0, 1, 1)
# Candidate 3 who takes exam 0 late, and gets the seat of candidate 1 who gave it up; candidate 2
# who gives it up.
PENDING, NEWCOMER, WITHDRAWN = (
    shown_exam(0, FRIDAY, "09:30:00", 0, 0, *rest)
    for rest in ((None, "pending"), (1,), (2, "withdrawn")))
SECOND_PAGE = (b"HTTP/1.1 200 OK\r\nContent-Type: application/json\r\nContent-Length: 229\r\n\r\n"
               b'{"candidate":2,"exams":[{"date":"2005-04-15","exam":0,"period":0,"room":0,'
               b'"seat":2,"start":"09:30:00","state":"seated"},{"date":"2005-04-15","exam":1,'
               b'"period":1,"room":0,"seat":1,"start":"14:00:00","state":"seated"}],"penalty":8}')
TEXT, MOVED_TEXT = (f"0, 0\r\n1, 0\r\n3, 1\r\n{last}\r\n" for last in ("2, 0", "3, 1"))
ROOMS = ("per room    used     cap  exams\n  0    0       2       3  0\n"
         "  1    0       2       3  1\n  2    0       1       3  3\n"
         "  3    1       1       2  2\n")
MOVED_ROOMS = ("per room    used     cap  exams\n  0    0       2       3  0\n"
               "  1    0       2       3  1\n  3    1       2       2  2 3\n")
SEAT_HEAD = "student,exam,period,room,seat\n"
SEAT_LIST, MOVED_SEATS = (
    f"{SEAT_HEAD}1,0,0,0,1\n2,0,0,0,2\n2,1,1,0,1\n3,1,1,0,2\n3,2,3,1,1\n{last}\n"
    for last in ("1,3,2,0,1", "1,3,3,1,2"))
# Exam 2 moved out of the room and period that it has with exam 3.
OUT_TEXT = "0, 0\r\n1, 0\r\n0, 1\r\n3, 1\r\n"
OUT_ROOMS = ("per room    used     cap  exams\n  0    0       2       3  0\n"
             "  0    1       1       2  2\n  1    0       2       3  1\n"
             "  3    1       1       2  3\n")
OUT_SEATS = f"{SEAT_HEAD}1,0,0,0,1\n2,0,0,0,2\n2,1,1,0,1\n3,1,1,0,2\n3,2,0,1,1\n1,3,3,1,2\n"
# Candidate 1 has left exam 0, and candidate 3 has come to it.
KEPT_SEATS = f"{SEAT_HEAD}2,0,0,0,2\n3,0,0,0,1\n2,1,1,0,1\n3,1,1,0,2\n3,2,3,1,1\n1,3,2,0,1\n"
# Another office, in which candidate 2 has the same places and seats; all else there differs.
OTHER = b"""[Exams:5]
60, 0, 2
45, 2, 7, 8
30, 5
100, 5, 6
120, 999999999
[Periods:4]
15:04:2005, 09:30:00, 120, 0
15:04:2005, 14:00:00, 120, 0
15:04:2005, 17:00:00, 90, 10
18:04:2005, 09:30:00, 120, 5
[Rooms:3]
4, 9
7, 1
1, 0
[PeriodHardConstraints]
0, EXCLUSION, 1
[RoomHardConstraints]
4, ROOM_EXCLUSIVE
[InstitutionalWeightings]
TWOINAROW,7
TWOINADAY,5
PERIODSPREAD,3
NONMIXEDDURATIONS,10
FRONTLOAD,1,2,4
"""
OTHER_SOLUTION = b"0, 0\n1, 0\n0, 1\n3, 1\n0, 2\n"
# The small session where exams 0 and 1 go into one period if they have no common candidate.
COINCIDING = SMALL.replace(b"1, AFTER, 0\n", b"1, AFTER, 0\n0, EXAM_COINCIDENCE, 1\n")
# The small session with period 3 on the day after the others, and with 6 for a night; a solution in
# which candidate 3 has exams 1 and 2 in periods 2 and 3.
NIGHTS = SMALL.replace(b"18:04:2005", b"16:04:2005") + b"OVERNIGHT,6\n"
NIGHTLY = b"0, 0\n2, 0\n3, 1\n1, 0\n"
# The session as the small one was loaded.
INSTANCE = message("GET", "/instance"), text(SMALL.replace(b"\n", b"\r\n"))
# The publication, its penalty, its rooms and its seats.
SHOWN = [message("GET", f"/publication{page}") for page in ("", "/penalty", "/rooms", "/seats")]


# Three students sit each of 33 exams, one in each period.
THIRTY_THREE = "\n".join([
    "[Exams:33]", *["60, 1, 2, 3"] * 33, "[Periods:33]", *["01:01:2000, 09:00:00, 60, 0"] * 33,
    "[Rooms:1]", "3, 0", "[PeriodHardConstraints]", "[RoomHardConstraints]",
    "[InstitutionalWeightings]", ""]).encode()
THIRTY_THREE_PLACED = b"".join(b"%d, 0\n" % exam for exam in range(33))

# What publishing stores: the name of the case, session and solution, its penalty, what sqlite3
# selects.
SEATS = "SELECT exam, student, period, room, seat FROM seat ORDER BY exam, student"
SHARES = ("SELECT * FROM share_student NATURAL JOIN night_share ORDER BY student; "
          "SELECT kind, no, penalty, mixed FROM share_part ORDER BY kind, no")
PARTS = ("SELECT * FROM draft NATURAL JOIN night_draft; SELECT sum(in_row), sum(in_day), "
         "sum(spread), "
         "sum(night) FROM share_student NATURAL JOIN night_share")
STORED = (
    ("worked_seats", SMALL, SOLUTION, 37, SEATS,
     b"0|1|0|0|1 0|2|0|0|2 1|2|1|0|1 1|3|1|0|2 2|3|3|1|1 3|1|2|0|1 "),
    ("worked_shares", SMALL, SOLUTION, 37, SHARES,
     b"1|0|5|1|0 2|7|0|1|0 3|0|0|1|0 0|0|0|0 0|1|0|0 0|2|0|0 0|3|0|0 1|0|0|0 1|1|0|0 1|2|10|0 "
     b"1|3|5|0 2|0|0|0 2|1|7|0 "),
    ("two_exams_in_one_room", SMALL, MOVED_TEXT.encode(), 44, SEATS,
     b"0|1|0|0|1 0|2|0|0|2 1|2|1|0|1 1|3|1|0|2 2|3|3|1|1 3|1|3|1|2 "),
    ("seats that nobody had before", SMALL, OUT_TEXT.encode(), 36, SEATS,
     b"0|1|0|0|1 0|2|0|0|2 1|2|1|0|1 1|3|1|0|2 2|3|0|1|1 3|1|3|1|1 "),
    ("shares of a night", NIGHTS, NIGHTLY, 43, SHARES,
     b"1|7|0|1|0 2|0|5|1|0 3|0|0|1|6 0|0|0|0 0|1|0|0 0|2|0|0 0|3|0|0 1|0|0|0 1|1|0|0 1|2|10|0 "
     b"1|3|5|0 2|0|0|0 2|1|7|0 "),
    # Of each kind more than one statement writes: 32 enrolments, 16 of the others.
    ("more rows than a statement writes", THIRTY_THREE, THIRTY_THREE_PLACED, 0,
     "SELECT exam, student FROM enrol ORDER BY exam, student; SELECT * FROM slot ORDER BY exam; "
     "SELECT * FROM placed ORDER BY exam; " + SEATS,
     b"".join([*(b"%d|%d " % (exam, student) for exam in range(33) for student in (1, 2, 3)),
               *(b"1|%d|%d|0 " % (exam, exam) for exam in range(33)),
               *(b"%d|%d|0 " % (exam, exam) for exam in range(33)),
               *(b"%d|%d|%d|0|%d " % (exam, student, exam, student)
                 for exam in range(33) for student in (1, 2, 3))])),
    ("parts with a night", NIGHTS, NIGHTLY, 43, PARTS, b"1|7|5|3|0|0|15|7|6 7|5|3|6 "))


# What candidate 2 asks in either office: exam 2 exists in both, exam 4 only in the other.
SECOND_EXAMS = [(asked_by(2, f"/exam/{exam}"), answer) for exam, answer in
                [*((exam, reply(200, SECOND[exam])) for exam in (0, 1)),
                 *((exam, error(404, "exam")) for exam in (2, 4, 9))]]
SECOND_ASKS = ((asked_by(2), SECOND_PAGE), *SECOND_EXAMS, (asked_by(2, "/penalty"), cost(7, 0, 1)),
               (message("GET", "/publication", caller="cand:2"), forbidden("P1")))


def moved_shown(places, parts, rooms, seats, third):
    """The replies about a publication in which exam 3 has moved, for each caller."""
    return ((SHOWN[0], text(places)), (SHOWN[1], text(parts)), (SHOWN[2], text(rooms)),
            (SHOWN[3], text(seats)),
            (asked_by(1), me(1, 1, *FIRST_MOVED)), (asked_by(2), SECOND_PAGE), (asked_by(3), third))


def case(name, start, *exchanges):
    return Case(name, start, [asked for asked, _ in exchanges], [came for _, came in exchanges])


CASES = [
    case("owners_and_callers", SMALL,
         (message("PUT", "/exams/0/owner", b'{"dept":3}'), reply(200, '{"dept":3,"exam":0}')),
         (EMPTY, drafted(201, 0)),
         (place(0, 0, 0, "dept:3"), drafted(200, 0)),
         (place(1, 0, 0, "dept:3"), forbidden("P3")),
         (swap(0, 1, "dept:3"), forbidden("P3")),
         (place(9, 0, 0, "dept:3"), forbidden("P3")),
         (message("PUT", "/instance", SMALL, "dept:3"), forbidden("P2")),
         (message("GET", "/drafts/1/penalty", caller="dept:4"), text(report(*[0] * 8))),
         (message("GET", "/drafts/1/penalty", caller=None), error(400, "caller")),
         (message("GET", "/drafts/1/penalty", caller="dept:0"), error(400, "caller")),
         (message("GET", "/drafts/1/penalty", caller=" \toffice "), text(report(*[0] * 8))),
         (message("POST", "/instance"), error(405, "method", "GET, PUT")),
         (message("POST", "/drafts/1"), error(405, "method", "GET, PUT, DELETE")),
         (message("PUT", "/drafts/1/penalty"), error(405, "method", "GET")),
         (message("GET", "/drafts/1/swap/0/1", caller="dept:4"), error(405, "method", "POST")),
         (message("POST", "/instance", caller="cand:1"), forbidden("P1")),
         (message("POST", "/publication"), error(405, "method", "GET")),
         (message("POST", "/publication", caller="cand:1"), forbidden("P1")),
         (message("GET", "/drafts/8", caller="cand:2"), forbidden("P1")),
         (message("GET", "/drafts/1", caller="cand:2"), forbidden("P1")),
         (message("GET", "/nowhere"), error(404, "path")),
         (message("GET", "/drafts/1234567890"), error(404, "path"))),
    case("clash_comes_first", SMALL,
         (EMPTY, drafted(201, 0)),
         (place(0, 0, 0), drafted(200, 0)),
         (place(1, 0, 0), broken("Clash", 0, 1))),
    case("too_long_for_period", SMALL,
         (EMPTY, drafted(201, 0)),
         (place(0, 2, 0), broken("Duration", 0, 0)),
         (place(0, 1, 0), drafted(200, 0))),
    case("swap", SMALL,
         (FROM_SOLUTION, drafted(201, 37)),
         (swap(1, 2), drafted(200, 30)),
         (PENALTY, text(report(0, 5, 3, 0, 0, 15, 7, 30))),
         (swap(1, 2), drafted(200, 37)),
         (swap(0, 3), broken("Duration", 0, 0)),
         (PENALTY, text(report(7, 5, 3, 0, 0, 15, 7, 37)))),
    case("edit_refusals_in_order", SMALL,
         (EMPTY, drafted(201, 0)),
         (place(0, 0, 0), drafted(200, 0)),
         (place(0, 0, 0), error(409, "already-placed")),
         (move(1, 0, 0), error(409, "not-placed")),
         (clear(1), error(409, "not-placed")),
         (swap(0, 0), error(409, "same-exam")),
         (place(9, 0, 0), error(404, "number")),
         (place(1, 4, 0), error(404, "number")),
         (place(1, 0, 2), error(404, "number")),
         (message("POST", "/drafts/1/exams/1/place", b'{"period":0}'), error(400, "body")),
         (message("POST", "/drafts/2/exams/1/place", at(0, 0)), error(404, "draft")),
         (clear(0), drafted(200, 0))),
    case("smallest_instance", None,
         (message("PUT", "/drafts/9"), error(409, "not-loaded")),
         (message("GET", "/instance"), error(409, "not-loaded")),
         (message("PUT", "/instance", b""), bad_file(2, 1)),
         (message("PUT", "/instance", SMALLEST),
          reply(201, '{"exams":1,"pairs":0,"periods":1,"rooms":1}')),
         (message("PUT", "/instance", SMALLEST), error(409, "loaded")),
         (message("PUT", "/drafts/9"), error(404, "draft")),
         (EMPTY, drafted(201, 0)),
         (EMPTY, error(409, "draft-taken")),
         (place(0, 0, 0), drafted(200, 0)),
         (VIOLATIONS, text("breaches 0\n")),
         (PENALTY, text(report(*[0] * 8)))),
    case("reports_and_dropped_draft", SMALL,
         *PUBLISHED,
         (SHOWN[2], text(ROOMS)),
         INSTANCE,
         (message("GET", "/drafts/1"), reply(200, PLACES)),
         (VIOLATIONS, text("breaches 0\n")),
         (message("DELETE", "/drafts/1"), reply(200, '{"draft":1}')),
         (message("DELETE", "/drafts/1"), error(404, "draft")),
         (message("GET", "/drafts/1"), error(404, "draft")),
         (SHOWN[0], text(TEXT)),
         (SHOWN[1], text(report(7, 5, 3, 0, 0, 15, 7, 37))),
         (SHOWN[2], text(ROOMS)),
         (SHOWN[3], text(SEAT_LIST))),
    case("who may read the seat list", SMALL,
         *PUBLISHED,
         (SHOWN[3], text(SEAT_LIST)),
         (message("GET", "/publication/seats", caller="dept:3"), forbidden("P2")),
         (message("GET", "/publication/seats", caller="cand:1"), forbidden("P1")),
         (message("GET", "/publication/seats", caller=None), error(400, "caller")),
         *((message(method, "/publication/seats", b"a body"), error(405, "method", "GET"))
           for method in ("PUT", "POST", "DELETE")),
         (message("GET", "/publication/seat"), error(404, "path")),
         (message("GET", "/publication/seats/"), error(404, "path")),
         (message("GET", "/publication/seats?exam=0"), error(404, "path"))),
    case("where an exam can go", SMALL,
         (places_of(3), error(404, "draft")),
         (FROM_SOLUTION, drafted(201, 37)),
         (places_of(3), text(PLACES_OF_3)),
         (places_of("03"), text(PLACES_OF_3)),
         (places_of(4), error(404, "number")),
         (places_of(999999999), error(404, "number")),
         (places_of("x"), error(404, "path")),
         (places_of(3, caller="dept:3"), forbidden("P3")),
         (message("PUT", "/exams/3/owner", b'{"dept":3}'), reply(200, '{"dept":3,"exam":3}')),
         (places_of(3, caller="dept:3"), text(PLACES_OF_3)),
         (places_of(2, caller="dept:3"), forbidden("P3")),
         (places_of(4, caller="dept:3"), forbidden("P3")),
         (places_of(3, caller="cand:1"), forbidden("P1")),
         (places_of(3, caller=None), error(400, "caller")),
         *((message(method, "/drafts/1/exams/3/places", b"a body"), error(405, "method", "GET"))
           for method in ("PUT", "POST", "DELETE")),
         (message("GET", "/drafts/1/exams/3/places/"), error(404, "path")),
         (message("GET", "/drafts/1/exams/3/places?room=0"), error(404, "path")),
         (message("GET", "/drafts/1/exams/3/place"), error(405, "method", "POST")),
         (message("GET", "/drafts/1"), reply(200, PLACES))),
    case("where an exam can go, without a session", None,
         (places_of(3), error(409, "not-loaded")),
         (places_of(3, caller="dept:3"), forbidden("P3"))),
    case("candidate_view", SMALL,
         *PUBLISHED,
         (asked_by(2), SECOND_PAGE),
         (asked_by(2, "/penalty"), cost(7, 0, 1)),
         (asked_by(2, "/exam/1"), reply(200, SECOND[1])),
         (asked_by(2, "/exam/2"), error(404, "exam")),
         (asked_by(2, "/exam/9"), error(404, "exam")),
         (asked_by(2, "/exam/x"), forbidden("P1")),
         (asked_by(1), me(1, 6, *FIRST)),
         (asked_by(1, "/penalty"), cost(0, 5, 1)),
         (asked_by(3), me(3, 1, *THIRD)),
         (asked_by(3, "/penalty"), cost(0, 0, 1)),
         (message("GET", "/me"), forbidden("P4")),
         (message("GET", "/me/penalty", caller="dept:3"), forbidden("P4")),
         (publish(8), error(404, "draft"))),
    case("candidate_is_answered", SMALL,
         (asked_by(1), me(1, 0, pending(0), pending(3))),
         (asked_by(1, "/penalty"), cost(0, 0, 0)),
         (asked_by(1, "/exam/3"), reply(200, pending(3))),
         *PUBLISHED,
         (asked_by(1), me(1, 6, *FIRST)),
         (asked_by(1, "/penalty"), cost(0, 5, 1)),
         (asked_by(1, "/exam/3"), reply(200, FIRST[1])),
         (publish(), published(0, 37)),
         (asked_by(1), me(1, 6, *FIRST)),
         (asked_by(1, "/penalty"), cost(0, 5, 1)),
         (asked_by(1, "/exam/3"), reply(200, FIRST[1]))),
    case("unknown_candidate", SMALL,
         *PUBLISHED,
         (asked_by(99), me(99, 0)),
         (asked_by(99, "/penalty"), cost(0, 0, 0)),
         (asked_by(99, "/exam/0"), error(404, "exam"))),
    case("candidate_learns_nothing_of_drafts", SMALL,
         *PUBLISHED,
         (message("GET", "/drafts/8", caller="cand:2"), forbidden("P1")),
         (message("GET", "/drafts/1", caller="cand:2"), forbidden("P1")),
         (message("POST", "/me", caller="cand:2"), forbidden("P1")),
         (clear(0), drafted(200, 23)),
         (asked_by(2), SECOND_PAGE)),
    case("two_offices_one_view, the one", SMALL, *PUBLISHED, *SECOND_ASKS),
    case("two_offices_one_view, the other", OTHER,
         (message("PUT", "/drafts/1", OTHER_SOLUTION), drafted(201, 34)),
         (publish(), published(7, 34)),
         *SECOND_ASKS,
         (message("PUT", "/instance", SMALL), error(409, "loaded")),
         (message("PUT", "/exams/0/owner", b'{"dept":3}'), reply(200, '{"dept":3,"exam":0}')),
         (clear(1), drafted(200, 17)),
         (publish(), reply(409, '{"error":"unplaced","exam":1}')),
         (message("DELETE", "/drafts/1"), reply(200, '{"draft":1}')),
         (asked_by(7), me(7, 0, shown_exam(1, FRIDAY, "14:00:00", 1, 0, 2))),
         *SECOND_ASKS),
    case("what a candidate sees before a publication", SMALL,
         (asked_by(2), me(2, 0, pending(0), pending(1))),
         (asked_by(2, "/exam/0"), reply(200, pending(0))),
         (asked_by(2, "/exam/3"), error(404, "exam")),
         (asked_by(99), me(99, 0)),
         *((question, error(404, "publication")) for question in SHOWN)),
    case("what is there before a load", None,
         (asked_by(99), me(99, 0)),
         (asked_by(99, "/penalty"), cost(0, 0, 0)),
         (asked_by(99, "/exam/0"), error(404, "exam")),
         (message("GET", "/drafts/1"), error(409, "not-loaded")),
         (publish(), error(409, "not-loaded")),
         *((question, error(404, "publication")) for question in SHOWN)),
    case("publish_twice", SMALL,
         (EMPTY, drafted(201, 0)),
         (place(0, 0, 0), drafted(200, 0)),
         (place(1, 1, 0), drafted(200, 8)),
         (place(2, 3, 1), drafted(200, 21)),
         (publish(), reply(409, '{"error":"unplaced","exam":3}')),
         (SHOWN[0], error(404, "publication")),
         (place(3, 2, 0), drafted(200, 37)),
         (publish(), published(3, 37)),
         (publish(), published(0, 37)),
         (SHOWN[0], text(TEXT)),
         (SHOWN[1], text(report(7, 5, 3, 0, 0, 15, 7, 37))),
         (SHOWN[2], text(ROOMS)),
         (SHOWN[3], text(SEAT_LIST)),
         (move(3, 3, 1), drafted(200, 44)),
         (SHOWN[0], text(TEXT)),
         (SHOWN[3], text(SEAT_LIST)),
         (asked_by(1), me(1, 6, *FIRST)),
         (publish(), published(1, 44)),
         (SHOWN[0], text(MOVED_TEXT)),
         (SHOWN[1], text(report(7, 0, 3, 10, 0, 10, 14, 44))),
         (SHOWN[2], text(MOVED_ROOMS)),
         (SHOWN[3], text(MOVED_SEATS)),
         (asked_by(1), me(1, 1, *FIRST_MOVED)),
         (asked_by(2), SECOND_PAGE),
         (asked_by(3), me(3, 1, *THIRD)),
         (message("DELETE", "/drafts/1"), reply(200, '{"draft":1}')),
         (publish(), error(404, "draft")),
         (SHOWN[0], text(MOVED_TEXT))),
    case("a publication that breaks a rule", SMALL,
         *PUBLISHED,
         (message("PUT", "/drafts/2", b"3, 0\n1, 0\n3, 1\n2, 0\n"),
          reply(201, '{"draft":2,"penalty":34}')),
         (publish(2), broken("After", 1, 0)),
         (SHOWN[0], text(TEXT)),
         (asked_by(2), SECOND_PAGE)),
    case("coincidence_by_enrolment", COINCIDING,
         (FROM_SOLUTION, drafted(201, 37)),
         (VIOLATIONS, text("breaches 0\n")),
         (batch(1, "2,1,drop"), enrolled(1, 0, 1, 0)),
         (VIOLATIONS, text("breaches 1\nCoincidence 0 1\n")),
         (PENALTY, text(report(0, 5, 2, 0, 0, 15, 7, 29))),
         (move(3, 3, 1), drafted(200, 36)),
         (VIOLATIONS, text("breaches 1\nCoincidence 0 1\n"))),
    case("batch_comes_twice", SMALL,
         (batch(5, "1,1,add", "1,1,add", "9,2,drop"), enrolled(5, 1, 0, 2)),
         (batch(5, "1,1,add", "1,1,add", "9,2,drop"), enrolled(5, 1, 0, 2)),
         (batch(6, "1,1,drop"), enrolled(6, 0, 1, 0)),
         (batch(5, "1,1,add", "1,1,add", "9,2,drop"), enrolled(5, 1, 0, 2)),
         INSTANCE,
         (batch(5, "1,1,add", "1,1,add", "9,2,drop", ""), error(409, "batch-differs")),
         (batch(6, "1,1,drop"), enrolled(6, 0, 1, 0))),
    case("pending_after_batch", SMALL,
         *PUBLISHED,
         (batch(6, "3,0,add"), enrolled(6, 1, 0, 0)),
         (asked_by(3), me(3, 1, PENDING, *THIRD)),
         (asked_by(3, "/exam/0"), reply(200, PENDING)),
         (asked_by(3, "/penalty"), cost(0, 0, 1)),
         (asked_by(1), me(1, 6, *FIRST)),
         (asked_by(2), SECOND_PAGE),
         (SHOWN[0], text(TEXT)),
         (SHOWN[1], text(report(7, 5, 3, 0, 0, 15, 7, 37))),
         (SHOWN[2], text(ROOMS)),
         (SHOWN[3], text(SEAT_LIST)),
         (PENALTY, text(report(14, 5, 5, 0, 0, 15, 7, 46)))),
    case("withdrawn_keeps_seat", SMALL,
         *PUBLISHED,
         (batch(7, "2,0,drop"), enrolled(7, 0, 1, 0)),
         (asked_by(2), me(2, 8, WITHDRAWN, SECOND[1])),
         (asked_by(2, "/exam/0"), reply(200, WITHDRAWN)),
         (asked_by(2, "/penalty"), cost(7, 0, 1)),
         (SHOWN[3], text(SEAT_LIST)),
         (batch(7, "2,0,drop"), enrolled(7, 0, 1, 0)),
         (batch(8, "2,0,add"), enrolled(8, 1, 0, 0)),
         (asked_by(2), SECOND_PAGE)),
    case("seats_kept", SMALL,
         *PUBLISHED,
         (batch(8, "1,0,drop"), enrolled(8, 0, 1, 0)),
         (PENALTY, text(report(7, 0, 2, 0, 0, 15, 7, 31))),
         (publish(), published(1, 31)),
         (asked_by(1), me(1, 0, FIRST[1])),
         (asked_by(2), SECOND_PAGE),
         (batch(9, "3,0,add"), enrolled(9, 1, 0, 0)),
         (PENALTY, text(report(14, 0, 4, 0, 0, 15, 7, 40))),
         (publish(), published(1, 40)),
         (SHOWN[1], text(report(14, 0, 4, 0, 0, 15, 7, 40))),
         (SHOWN[3], text(KEPT_SEATS)),
         (asked_by(2), SECOND_PAGE),
         (asked_by(3), me(3, 10, NEWCOMER, *THIRD)),
         (asked_by(3, "/penalty"), cost(7, 0, 3))),
    case("seats_kept, where another exam leaves the room and comes back", SMALL,
         *PUBLISHED,
         (move(3, 3, 1), drafted(200, 44)),
         (publish(), published(1, 44)),
         (move(2, 0, 1), drafted(200, 36)),
         (publish(), published(1, 36)),
         *moved_shown(OUT_TEXT, report(14, 0, 3, 0, 0, 5, 14, 36), OUT_ROOMS, OUT_SEATS,
                      me(3, 8, *THIRD_MOVED)),
         (move(2, 3, 1), drafted(200, 44)),
         (publish(), published(1, 44)),
         *moved_shown(MOVED_TEXT, report(7, 0, 3, 10, 0, 10, 14, 44), MOVED_ROOMS, MOVED_SEATS,
                      me(3, 1, *THIRD))),
    case("two_offices_one_view, with a draft, an owner and a batch", SMALL,
         *PUBLISHED,
         (message("PUT", "/drafts/2"), reply(201, '{"draft":2,"penalty":0}')),
         (message("PUT", "/exams/3/owner", b'{"dept":5}'), reply(200, '{"dept":5,"exam":3}')),
         (batch(9, "1,1,add"), enrolled(9, 1, 0, 0)),
         *SECOND_ASKS,
         (SHOWN[1], text(report(7, 5, 3, 0, 0, 15, 7, 37)))),
    case("batches that are refused", SMALL,
         (batch(1, "1,1,add", "1,4,drop"), error(404, "number")),
         (batch(1, "1,1,add", "1,1,ad"), bad_file(7, 3)),
         (batch(1, "1,1,add", "1,2000,add"), bad_file(8, 3)),
         (batch(1, "1,1,add", "1000000000,1,add"), bad_file(8, 3)),
         (batch(1, "1,1,add", ",1,add"), bad_file(4, 3)),
         (batch(1, "1,1,add", "1,1,add,1"), bad_file(10, 3)),
         (message("PUT", "/batches/1"), bad_file(11, 1)),
         (message("PUT", "/batches/1", b"1,1,add\n"), bad_file(11, 1)),
         INSTANCE,
         (batch(1, "1,1,add"), enrolled(1, 1, 0, 0)),
         (batch(1, "1,4,drop"), error(409, "batch-differs")),
         (batch(1, "1,4,dro"), bad_file(7, 2)),
         (message("PUT", "/batches/2", batch_text("1,1,drop"), "dept:3"), forbidden("P2")),
         (message("PUT", "/batches/2", b"", "cand:1"), forbidden("P1")),
         (message("GET", "/batches/1"), error(405, "method", "PUT")),
         (message("PUT", "/batches/x", batch_text()), error(404, "path")),
         (batch(999999999), enrolled(999999999, 0, 0, 0)),
         (message("PUT", "/batches/1000000000", batch_text()), error(404, "path"))),
    case("a batch of which no line acts, beside a draft", SMALL,
         (FROM_SOLUTION, drafted(201, 37)),
         (batch(1, "1,0,add", "3,0,drop"), enrolled(1, 0, 0, 2)),
         (PENALTY, text(report(7, 5, 3, 0, 0, 15, 7, 37))),
         (batch(1, "1,0,add", "3,0,drop"), enrolled(1, 0, 0, 2)),
         (batch(1, "1,0,add"), error(409, "batch-differs")),
         (message("GET", "/drafts/1"), reply(200, PLACES)),
         (message("DELETE", "/drafts/1"), reply(200, '{"draft":1}')),
         (PENALTY, error(404, "draft"))),
    case("a batch before a load", None,
         (batch(1, "1,0,add"), error(409, "not-loaded")),
         (batch(1, "1,0,ad"), bad_file(7, 2)),
         (message("PUT", "/instance", SMALLEST),
          reply(201, '{"exams":1,"pairs":0,"periods":1,"rooms":1}')),
         (batch(1, "1,0,add"), enrolled(1, 1, 0, 0))),
    case("a candidate's message in chunks", SMALL,
         (asked_by(99), me(99, 0)),
         (message("GET", "/me", caller="cand:99", fields=["Transfer-Encoding: chunked"]),
          error(501, "transfer"))),
    case("a draft with breaches", SMALL,
         (message("PUT", "/drafts/1", b"3, 0\n1, 0\n3, 1\n2, 0\n"), drafted(201, 34)),
         (VIOLATIONS, text("breaches 1\nAfter 1 0\n")),
         (PENALTY, text(report(0, 0, 3, 0, 4, 20, 7, 34))),
         (message("PUT", "/drafts/2", b"0, 0\n"), bad_file(3, 2))),
    case("a message that asks for the end", SMALL,
         (EMPTY, drafted(201, 0)),
         (message("GET", "/drafts/1/penalty", fields=["Connection: Close"]),
          text(report(*[0] * 8)))),
    case("a message in chunks", SMALL,
         (EMPTY, drafted(201, 0)),
         (message("GET", "/drafts/1", fields=["Transfer-Encoding: chunked"]),
          error(501, "transfer"))),
    case("a message that is no request", SMALL,
         (EMPTY, drafted(201, 0)), (b"no request\r\n\r\n", error(400, "request"))),
    case("a message to no host", SMALL,
         (EMPTY, drafted(201, 0)),
         (b"GET /drafts/1 HTTP/1.1\r\nX-Caller: office\r\n\r\n", error(400, "request"))),
    case("a message to no host, of the older HTTP", SMALL,
         (EMPTY, drafted(201, 0)),
         (b"GET /drafts/1/violations HTTP/1.0\r\nX-Caller: office\r\n\r\n", text("breaches 0\n"))),
]
