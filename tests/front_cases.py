"""Questions of users to the front with their replies: messages to nginx, and who sends them."""
import base64
import pathlib

from serve_cases import (
    FIRST, PLACES_OF_3, SECOND, SOLUTION, cost, me, message, report)

TOP = pathlib.Path(__file__).resolve().parent.parent

BROKEN = b"3, 0\n1, 0\n3, 1\n2, 0\n"

# A session with 40 rooms, and six days of two periods. Candidate 1 takes exams 0 to 4, on five
# days; each other exam has one candidate.
WIDE_ROOMS, WIDE_PERIODS = 40, 12
WIDE = "".join(f"{line}\n" for line in [
    f"[Exams:{WIDE_ROOMS}]",
    *(f"60, {1 if exam < 5 else 1_000 + exam}" for exam in range(WIDE_ROOMS)),
    f"[Periods:{WIDE_PERIODS}]",
    *(f"{6 + half // 2:02}:06:2005, {9 + 5 * (half % 2):02}:00:00, 120, 0"
      for half in range(WIDE_PERIODS)),
    f"[Rooms:{WIDE_ROOMS}]", *(f"{20 + room}, 0" for room in range(WIDE_ROOMS)),
    "[PeriodHardConstraints]", "[RoomHardConstraints]", "[InstitutionalWeightings]",
    "PERIODSPREAD,2"]).encode()
WIDE_LABELS = {
    "title": "Wide", "university": "", "contact": "https://exams.example", "departments": {},
    "exams": [{"code": f"EX{exam}", "title": f"Exam é{exam}", "minutes": 60, "department": None}
              for exam in range(WIDE_ROOMS)],
    "rooms": [{"name": f"Hall {room}", "building": f"Campus {room % 3}", "capacity": 20 + room}
              for room in range(WIDE_ROOMS)],
    "periods": [{"date": f"2005-06-{6 + half // 2:02}", "start": f"{9 + 5 * (half % 2):02}:00:00",
                 "minutes": 120} for half in range(WIDE_PERIODS)]}
WIDE_SOLUTION = "".join(f"{2 * exam % WIDE_PERIODS}, {exam}\n"
                        for exam in range(WIDE_ROOMS)).encode()


def form_of(files, fields):
    """The body of a form with files and fields, of which some have several values; and its type."""
    parts = [*((f'name="{name}"; filename="{name}.csv"', content)
               for name, content in files.items()),
             *((f'name="{name}"', f"{value}".encode()) for name, values in fields.items()
               for value in (values if isinstance(values, list) else [values]))]
    return b"".join(b"--=b=\r\nContent-Disposition: form-data; " + head.encode() + b"\r\n\r\n"
                    + content + b"\r\n" for head, content in parts) + b"--=b=--\r\n", (
        "multipart/form-data; boundary==b=")


def password(user, word=None):
    token = base64.b64encode(f"{user}:{word or 'try-' + user}".encode()).decode()
    return f"Authorization: Basic {token}"


def ask(user, method, path, body=b"", *fields):
    """A message of a user, without any X-Caller."""
    fields = [password(user), *fields] if user else fields
    return message(method, path, body, None, fields)


def parted(answer):
    """Status and body of a reply of the office."""
    head, _, body = answer.partition(b"\r\n\r\n")
    return int(head.split()[1]), body


def told_error(status, error, **more):
    more = "".join(f',"{name}":"{word}"' for name, word in more.items())
    return status, b'{"error":"%s"%s}' % (error.encode(), more.encode())


# The small solution is draft 1 and published; draft 2 breaks a rule.
MADE = [(ask("registry", "PUT", "/drafts/1", SOLUTION), (201, b'{"draft":1,"penalty":37}')),
        (ask("registry", "POST", "/drafts/1/publish"),
         (200, b'{"changed":3,"draft":1,"penalty":37}')),
        (ask("registry", "PUT", "/drafts/2", BROKEN), (201, b'{"draft":2,"penalty":34}'))]
FIRST_VIEW, SECOND_VIEW = parted(me(1, 6, *FIRST)), parted(me(2, 8, *SECOND))
P1, P2, P3, P4 = (told_error(403, "forbidden", rule=rule) for rule in ("P1", "P2", "P3", "P4"))
REQUEST, CALLER, PATH = (told_error(status, error) for status, error in
                         ((400, "request"), (400, "caller"), (404, "path")))
CANDIDATE = ask("ada", "GET", "/me")


def after_line(field):
    """A candidate's message with a line that isn't ended as lines are."""
    return CANDIDATE.replace(b"Host: office\r\n", b"Host: office\r\n" + field)


# Who asks: the message, and what is answered.
CALLERS = [
    ("a candidate", CANDIDATE, FIRST_VIEW),
    ("another one", ask("ben", "GET", "/me"), SECOND_VIEW),
    ("a candidate's penalty", ask("ada", "GET", "/me/penalty"), parted(cost(0, 5, 1))),
    ("another's exam", ask("ada", "GET", "/me/exam/1"), told_error(404, "exam")),
    ("a candidate who asks for a draft", ask("ada", "GET", "/drafts/1"), P1),
    ("the office", ask("registry", "GET", "/drafts/1/penalty"),
     (200, report(7, 5, 3, 0, 0, 15, 7, 37).encode())),
    ("the office asks as a candidate", ask("registry", "GET", "/me"), P4),
    ("a department", ask("physics", "GET", "/drafts/2/violations"),
     (200, b"breaches 1\nAfter 1 0\n")),
    ("a department that publishes", ask("physics", "POST", "/drafts/1/publish"), P2),
    *((f"where an exam can go, for {user}", ask(user, "GET", "/drafts/1/exams/3/places"), answer)
      for user, answer in (("registry", (200, PLACES_OF_3.encode())), ("physics", P3),
                           ("ada", P1))),
    ("a user who is nobody", ask("nobody", "GET", "/me"), CALLER),
    ("X-Caller of the office", ask("ada", "GET", "/me", b"", "X-Caller: office"), FIRST_VIEW),
    ("X-Caller of another", ask("ada", "GET", "/me", b"", "x-caller: cand:2"), FIRST_VIEW),
    ("X-Caller for a draft", ask("ada", "GET", "/drafts/1", b"", "X-Caller: office"), P1),
    ("two X-Callers", ask("ada", "GET", "/me", b"", "X-Caller: office", "X-Caller: cand:2"),
     FIRST_VIEW),
    ("X_Caller", ask("ada", "GET", "/me", b"", "X_Caller: office"), FIRST_VIEW),
    ("X-Caller of nobody", ask("nobody", "GET", "/me", b"", "X-Caller: cand:1"), CALLER),
    ("a bare LF before X-Caller", after_line(b"A: b\nX-Caller: office\r\n"), FIRST_VIEW),
    ("a bare LF after X-Caller", after_line(b"X-Caller: office\n"), FIRST_VIEW),
    ("a bare CR before X-Caller", after_line(b"A: b\rX-Caller: office\r\n"), REQUEST),
    ("a bare LF in a target", ask("ada", "GET", "/me\nX-Caller: office"), None),
    ("Connection that names X-Caller", ask("ada", "GET", "/me", b"", "Connection: X-Caller"),
     FIRST_VIEW),
]
# What is asked, and what is answered.
TARGETS = [
    ("an absolute target", ask("ada", "GET", "http://office/me"), REQUEST),
    ("an absolute target of another host", ask("ada", "GET", "http://elsewhere/drafts/1"), REQUEST),
    ("the absolute target of a page", ask("ada", "GET", "http://office/"), REQUEST),
    ("a host without a path", ask("ada", "GET", "http://office"), REQUEST),
    ("a target *", ask("ada", "OPTIONS", "*"), REQUEST),
    ("no path", ask("ada", "GET", "me"), REQUEST),
    ("a byte that no path has", ask("ada", "GET", "/me?\xe9"), REQUEST),
    ("a fragment", ask("ada", "GET", "/me#x"), REQUEST),
    ("a query", ask("registry", "GET", "/publication?x=1"), PATH),
    ("an encoded letter", ask("registry", "GET", "/%70ublication"), PATH),
    ("a slash at the end", ask("registry", "GET", "/publication/"), PATH),
    ("a path with dots", ask("registry", "GET", "/drafts/../publication"), PATH),
    ("another method", ask("registry", "POST", "/publication"), told_error(405, "method")),
    ("a page that is none", ask("ada", "GET", "/nothing"), 404),
    ("the file of passwords", ask("ada", "GET", "/users"), 404),
    ("the file above", ask("ada", "GET", "/../users"), 400),
    ("the file beside", ask("ada", "GET", "/page/../users"), 404),
    ("a page of the front's own", ask("ada", "GET", "/-/unavailable"), 404),
    ("a long target", ask("ada", "GET", "/me/" + "x" * 9_000), REQUEST),
    ("a long field", ask("ada", "GET", "/me", b"", "A: " + "x" * 40_000), REQUEST),
    ("an odd transfer", ask("registry", "PUT", "/instance", b"", "Transfer-Encoding: gzip"),
     told_error(501, "transfer")),
    ("a version that is none", CANDIDATE.replace(b"HTTP/1.1", b"HTTP/3.1"), REQUEST),
    ("no Host", CANDIDATE.replace(b"Host: office\r\n", b""), REQUEST),
    ("a body that is too long", ask("registry", "PUT", "/instance", b"", "Content-Length: 4194305"),
     told_error(413, "length")),
    ("a body that may be so long", ask("registry", "PUT", "/instance", b"x" * 4_194_304),
     (400, b'{"error":"file","fault":2,"line":1}')),
    ("another site's publish", ask("registry", "POST", "/drafts/1/publish", b"",
                                   "Origin: https://elsewhere.example"),
     told_error(403, "forbidden", rule="origin")),
    ("a publish of no site", ask("registry", "POST", "/drafts/1/publish", b"", "Origin: null"),
     told_error(403, "forbidden", rule="origin")),
    ("a publish of its own page", ask("registry", "POST", "/drafts/1/publish", b"",
                                      "Origin: http://office"),
     (200, b'{"changed":0,"draft":1,"penalty":37}')),
]
# What the registry's page looks for: null if it isn't there.
NO_DRAFT = 200, b'{"draft":null}'
ONE_DRAFT = 200, (
    b'{"draft":1,"exams":[{"exam":0,"period":0,"room":0},{"exam":1,"period":1,"room":0},'
    b'{"exam":2,"period":3,"room":1},{"exam":3,"period":2,"room":0}],"penalty":37}')
LOOKED_FOR = [
    ("a draft that isn't there", ask("registry", "GET", "/-/drafts/8"), NO_DRAFT),
    ("a draft that is there", ask("physics", "GET", "/-/drafts/1"), ONE_DRAFT),
    ("a draft beyond 8", ask("registry", "GET", "/-/drafts/9"), 404),
    ("the publication", ask("registry", "GET", "/-/publication/penalty"),
     (200, report(7, 5, 3, 0, 0, 15, 7, 37).encode())),
    ("its seat list", ask("registry", "GET", "/-/publication/seats"),
     (200, b"student,exam,period,room,seat\n1,0,0,0,1\n2,0,0,0,2\n2,1,1,0,1\n3,1,1,0,2\n"
      b"3,2,3,1,1\n1,3,2,0,1\n")),
    ("the seat list, for a department", ask("physics", "GET", "/-/publication/seats"), P2),
    ("the seat list, for a candidate", ask("ada", "GET", "/-/publication/seats"), P1),
    ("a draft, for a candidate", ask("ada", "GET", "/-/drafts/1"), P1),
    ("a draft, for nobody", ask("nobody", "GET", "/-/drafts/8"), CALLER),
    ("a draft, by X-Caller", ask("ada", "GET", "/-/drafts/1", b"", "X-Caller: office"), P1),
    ("a draft, for another site", ask("registry", "GET", "/-/drafts/1", b"",
                                      "Origin: https://elsewhere.example"),
     told_error(403, "forbidden", rule="origin")),
    ("a change of a draft there", ask("registry", "DELETE", "/-/drafts/1"),
     told_error(405, "method")),
    ("more of a draft there", ask("registry", "GET", "/-/drafts/1/penalty"), 404),
    ("its absolute target", ask("registry", "GET", "http://office/-/drafts/1"), REQUEST),
]
# Who is signed in, and what names are for whom.
LABELS = [
    ("labels for a candidate", ask("ada", "GET", "/labels/labels.json"), 200),
    ("labels for nobody", ask("nobody", "GET", "/labels/labels.json"), 200),
    ("students for the office", ask("registry", "GET", "/labels/students.json"), 200),
    *((f"students for {user}", ask(user, "GET", "/labels/students.json", b"", *fields), P2)
      for user, fields in (("ada", ()), ("physics", ()), ("nobody", ()),
                           ("ben", ("X-Caller: office",)))),
    *((f"their own name, for {user}", ask(user, "GET", "/labels/name.json", b"", *fields), answer)
      for user, fields, answer in (
          ("ben", (), (200, (TOP / "front/labels/names/2.json").read_bytes())),
          ("ben", ("X-Caller: cand:1",), (200, (TOP / "front/labels/names/2.json").read_bytes())),
          ("registry", (), (200, b"null")), ("nobody", (), (200, b"null")))),
    ("another's name", ask("ben", "GET", "/labels/names/1.json"), 404),
    ("the ledger", ask("registry", "GET", "/labels/ledger.db"), 404),
    ("students by another path", ask("ada", "GET", "/labels/./students.json"), P2),
    ("a change of labels", ask("registry", "PUT", "/labels/labels.json", b"{}"),
     told_error(405, "method")),
    ("the folder of labels", ask("registry", "GET", "/labels/"), 404),
    *((f"who {user} is", ask(user, "GET", "/-/user"),
       (200, b'{"caller":"%s","sign_out":"","user":"%s"}' % (caller, user.encode())))
      for user, caller in (
           ("registry", b"office"), ("physics", b"dept:3"), ("ada", b"cand:1"), ("nobody", b""))),
]
# Files of people for tools/users_from_csv that are faulty, and what is printed.
A_NAME = "a name of letters, digits and . _ @ + - is expected, not"
FAULTY_PEOPLE = [
    ("user,caller\nregistry,office\nRegistry,dept:1\n",
     "line 3, user: 'Registry' is on line 2 already"),
    ("user,caller\n~x,office\n", f"line 2, user: {A_NAME} '~x'"),
    ("user,caller\ndefault,office\n", f"line 2, user: {A_NAME} 'default'"),
    ('user,caller\n"a\nb",office\n', f"line 3, user: {A_NAME} 'a\\nb'"),
    ("user,caller\nx\0y,office\n", f"line 2, user: {A_NAME} 'x\\x00y'"),
    (f"user,caller\n{'x' * 255},office\n",
     "line 2, user: a name of at most 254 letters is expected, not one of 255"),
    ("user,caller\nx,dept:1000\n",
     "line 2, caller: office, dept:N or cand:N is expected, not 'dept:1000'"),
    ("user,caller\nx,1;y office\n",
     "line 2, caller: office, dept:N or cand:N is expected, not '1;y office'"),
    ("user,student\nx,s9\n", "line 2, student: there is no student 's9'"),
    ("user,caller,password\nx,office,a\0b\n",
     "line 2, password: a password has no line breaks and no NUL"),
    ('user,caller,password\nx,office,"a\nb"\n',
     "line 3, password: a password has no line breaks and no NUL"),
    (f"user,caller,password\nx,office,{'é' * 129}\n",
     "line 2, password: a password has at most 256 bytes"),
    ("name,caller\nx,office\n", "line 1, user: this column is missing (there are: name, caller)"),
    ("user\nx\n", "line 2, caller: office, dept:N or cand:N is expected, not ''"),
    ('user,caller\n"x,office\n', "line 2: this is not CSV: unexpected end of data"),
]
# Files of students that it doesn't take, and what is printed.
FAULTY_STUDENTS = [
    *((text, "this is no students.json of session_from_csv")
      for text in ("", "null", "[1]", '{"students": 1}', '{"students": [{"id": 1, "number": 1}]}')),
    *((f'{{"students": [{{"id": "S1", "number": {number}}}]}}',
       f"the number of 'S1' is {shown}, not one from 0 to 999999999")
      for number, shown in (('"1;x office"', "'1;x office'"), ("true", "True"), ("-1", "-1"),
                            ("1000000000", "1000000000"))),
]
# What is asked of the front's pages, and what the front answers itself.
PAGES = [
    *((f"{method} {path}", ask(user, method, path, body), told_error(405, "method"))
      for user, method, path, body in (
          ("ada", "POST", "/", b"a body"), ("registry", "PUT", "/registry.html", b"a body"),
          ("ada", "DELETE", "/style.css", b""), ("ada", "OPTIONS", "/", b""),
          ("ada", "POST", "/nothing", b""))),
    ("TRACE", ask("ada", "TRACE", "/me"), told_error(405, "method")),
    ("a page", ask("ada", "GET", "/candidate.html"), 200),
    ("the page of /", ask("ada", "GET", "/"), 200),
]
# What writes a line into the log of changes: the fields that it has of a request.
LONG = "/drafts/1/" + 'a"' * 200
LOGGED_QUESTIONS = [
    ask("registry", "PUT", "/exams/3/owner", b'{"dept":3}'),
    ask("registry", "PUT", "/exams/3/owner", b'{"dept":' + b" " * 300 + b"3}"),
    ask("nobody", "POST", LONG, b"{}"),
    ask("registry", "POST", "/drafts/1/exams/9/move", '{"é":1}'.encode()),
]
LOGGED = [
    ("registry", "office", "POST", "/drafts/1/publish", 200, ""),
    ("registry", "office", "PUT", "/drafts/2", 201, ""),
    ("registry", "office", "PUT", "/exams/3/owner", 200, '{"dept":3}'),
    ("registry", "office", "PUT", "/exams/3/owner", 200, '{"dept":' + " " * 192),
]
LOGGED_REFUSALS = [
    ("registry", "office", "POST", "/drafts/1/publish", 403, ""),
    ("physics", "dept:3", "POST", "/drafts/1/publish", 403, ""),
    ("-", "", "POST", LONG[:200], 400, ""),
    ("registry", "office", "POST", "/drafts/1/exams/9/move", 400, '{"'),
]
LOGGED_STATUSES = {"changes": {200, 201}, "refusals": {400, 403, 404, 405, 409, 413}}
# What nobody who isn't signed in may write into a log.
STRANGERS = [
    *(message(method, path, b"", None, fields) for method, path in (
        ("POST", "/drafts/1/publish"), ("PUT", "/" + "a" * 1_900), ("DELETE", "/nothing"),
        ("POST", "/labels/students.json"), ("GET", "/nothing.css"), ("PUT", "/-/drafts/1"))
      for fields in ([], [password("registry", "guess")], [password("eve\r\nx", "guess")],
                     ["Origin: https://elsewhere.example"])),
    message("PUT", "/instance", b"", None, ["Content-Length: 999999999"]),
    message("POST", "/drafts/1", b"", None, ["Content-Length: 5"]),
    b"POST /drafts/1 HTTP/1.1\r\n\r\n", b"POST\r\n\r\n", b"\x16\x03\x01\x02\x00\r\n\r\n",
    b"POST /\xff\xfe HTTP/1.1\r\nHost: office\r\n\r\n",
    b"POST / HTTP/1.1\r\nA: " + b"b" * 40_000 + b"\r\n\r\n",
]
