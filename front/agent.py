"""Signing in: checks names and passwords, makes the sessions that HAProxy verifies (sign_in.cfg).

Only this program sees passwords. It runs as one process with some threads, because its counts of
wrong passwords are in its memory (and in a file, so that a restart keeps them):

    gunicorn --workers 1 --threads 32 --bind unix:agent.sock agent:app

FRONT_FOLDER has the files `users` (NAME:HASH, NAME:{PLAIN}WORD, or NAME:{CODE}DIGEST; a code's
digest may come after a hash too), `callers` and `programs`.
FRONT_STATE is a folder of its own, with `sessions.map` for HAProxy. FRONT_KEY signs. The limits
(`limits`) are in the environment too.
"""
import base64
import collections
import contextlib
import hashlib
import hmac
import ipaddress
import os
import pathlib
import re
import secrets
import sqlite3
import threading
import time

import flask
import jwt
import passlib.context
import passlib.exc
import zxcvbn

import browsers
import codes
import sign_ins

FOLDER, STATE = (pathlib.Path(os.environ[name]) for name in ("FRONT_FOLDER", "FRONT_STATE"))
KEY = os.environ["FRONT_KEY"]
# The file `limits` says what these count.
OF_USER, OF_DEVICE, OF_ADDRESS = (int(os.environ[f"GUESSES_OF_{name}"])
                                  for name in ("USER", "BROWSER", "ADDRESS"))
NOISY_FAILURES, NOISY_REFUSALS = (int(os.environ[f"NOISY_{name}"])
                                  for name in ("FAILURES", "REFUSALS"))
MINUTE, KEPT_SECONDS, DEVICE_SECONDS = 60, 600, 90 * 86_400
SIGN_INS_OF_USER, SESSION_UNUSED, SESSION_LONGEST = (int(os.environ[name]) for name in (
    "SIGN_INS_OF_USER", "SESSION_UNUSED", "SESSION_LONGEST"))
LONGEST_NAME, LONGEST_PASSWORD, MOST_DEVICE_USERS, MOST_KNOWN = 254, 1_024, 8, 10_000
# How hard a new password has to be to guess, of 4, and how much of it is judged.
LEAST_SCORE, JUDGED = 3, 100
# As few hashes at once as there are processors; each takes 19 MB and some 30 ms.
HASHES_AT_ONCE = int(os.environ.get("FRONT_HASHES", os.cpu_count() or 1))
HASHES = passlib.context.CryptContext(
    schemes=["argon2", "apr_md5_crypt", "sha512_crypt", "sha256_crypt", "ldap_salted_sha1",
             "ldap_sha1"],
    argon2__type="ID", argon2__time_cost=2, argon2__memory_cost=19_456, argon2__parallelism=1)
# A name that nobody has takes as long as one that somebody has.
NOBODY = HASHES.hash(secrets.token_hex())
# A line of `callers`: of a session, of all ("*"), or of the only one.
CALLER = re.compile(r'^[ \t]*"?(?:(\S+) )?([^\s"#]+)"?[ \t]+([^;\s]+)[ \t]*;', re.M)
PAGES = {
    None: (200, ""),
    "out": (200, "You have signed out."),
    "offered": (200, "With this link a browser may sign in, whatever others try. It works once."),
    "link": (200, "This browser may sign in now, whatever others try. The link has been used up."),
    "used": (200, "This link was used already, or is too old. Ask your registry for another one."),
    "wrong": (401, "This name and password don't belong together."),
    "often": (429, "Too many wrong passwords were entered for this name or from your network. Wait"
                   " a minute, then try again. A password such as 7k3f-9mhd-q2xt, from a letter, is"
                   " not affected; nor is a device on which you have signed in before."),
    "fast": (429, "You have signed in very often in the last minutes. Wait a few minutes, then try"
                  " again."),
    "ended": (200, "That browser is signed out."),
    "new": (400, "This new password is too easy to guess. Take a longer one, of several words that"
                 " don't belong together, and not the form of a letter's password."),
    "same": (400, "The new password is the one that you have."),
    "changed": (200, "You have a new password, and are signed out on all other browsers."),
    "everywhere": (200, "You are signed out on all browsers."),
    "tls": (403, "Passwords are only taken over https."),
}
SCHEMA = """
CREATE TABLE IF NOT EXISTS failed (key TEXT, at REAL);
CREATE TABLE IF NOT EXISTS users (name TEXT PRIMARY KEY, seal TEXT, since INTEGER);
CREATE TABLE IF NOT EXISTS gone (token TEXT PRIMARY KEY, until INTEGER);
CREATE TABLE IF NOT EXISTS own (name TEXT PRIMARY KEY, seal TEXT, hash TEXT);
CREATE TABLE IF NOT EXISTS renewed (name TEXT PRIMARY KEY, seal TEXT, hash TEXT);
"""

app = flask.Flask(__name__, static_folder=None, template_folder="page")
app.config["MAX_CONTENT_LENGTH"] = 8_192
lock, hashing = threading.RLock(), threading.BoundedSemaphore(HASHES_AT_ONCE)


def milliseconds():
    return time.time_ns() // 1_000_000


def sealed(*texts):
    """A digest that only who has the key can make."""
    return hmac.digest(KEY.encode(), "\0".join(texts).encode(), hashlib.sha256).hex()


class Kept:
    """What a restart keeps: counts, hashes that were renewed, since when sessions count."""

    def __init__(self):
        self.db = sqlite3.connect(STATE / "agent.db", check_same_thread=False, isolation_level=None)
        self.db.execute("PRAGMA journal_mode = WAL")
        self.db.execute("PRAGMA synchronous = NORMAL")
        self.db.executescript(SCHEMA + browsers.SCHEMA)

    def ask(self, text, *values):
        with lock:
            return self.db.execute(text, values).fetchall()


kept = Kept()
log = sign_ins.SignIns(STATE / "sign_ins.db")
signed_in_on = browsers.Browsers(kept.ask)


# ---- Counts of wrong passwords

class Counts:
    """When something failed, by what is counted; at most the last ten minutes."""

    def __init__(self):
        self.moments: dict[str, collections.deque[float]] = collections.defaultdict(
            collections.deque)
        self.swept = 0.0
        for key, moment in kept.ask("SELECT key, at FROM failed ORDER BY at"):
            self.moments[key].append(moment)

    def lately(self, key, seconds=MINUTE):
        after = time.time() - seconds
        return sum(moment > after for moment in self.moments.get(key, ()))

    def add(self, key, moment):
        self.moments[key].append(moment)
        kept.ask("INSERT INTO failed VALUES (?, ?)", key, moment)

    def note(self, key, most):
        """Counts something only in memory, and no more than matter."""
        self.moments[key].append(time.time())
        while len(self.moments[key]) > most:
            self.moments[key].popleft()

    def take_back(self, key, moment):
        with contextlib.suppress(ValueError):
            self.moments[key].remove(moment)
        kept.ask("DELETE FROM failed WHERE key = ? AND at = ?", key, moment)

    def sweep(self):
        """Forgets what is too old, once a minute."""
        now = time.time()
        if now > self.swept + MINUTE:
            self.swept = now
            kept.ask("DELETE FROM failed WHERE at < ?", now - KEPT_SECONDS)
            for key in [key for key, moments in self.moments.items()
                        if not moments or moments[-1] < now - KEPT_SECONDS]:
                del self.moments[key]


counts = Counts()


def is_full(user, address, device):
    if device:
        return counts.lately(f"device {device} {user}") >= OF_DEVICE
    noisy = (counts.lately(f"address {address}", KEPT_SECONDS) >= NOISY_FAILURES
             or counts.lately(f"refused {address}", KEPT_SECONDS) >= NOISY_REFUSALS)
    return (counts.lately(f"user {user}") >= (OF_USER // 2 if noisy else OF_USER)
            or counts.lately(f"address {address}") >= OF_ADDRESS)


# ---- Users

class Users:
    """The users of the file, by their name in small letters: how it is spelled, the hash of their
    password, and the digest of their code."""

    def __init__(self):
        self.marks, self.lines, self.given = None, {}, {}

    @staticmethod
    def changed_marks():
        paths = (FOLDER / name for name in ("users", "callers", "programs"))
        return [(path.stat().st_mtime_ns, path.stat().st_ino) if path.exists() else None
                for path in paths]

    def read(self):
        """Reads the files again if they have changed."""
        marks = self.changed_marks()
        with lock:
            if marks == self.marks:
                return
            lines = (line.split(":") for line in text_of("users").splitlines()
                     if ":" in line and line[0] not in "#:")
            given = {name.lower(): (name, *kept_of(words)) for name, *words in lines}
            self.given, self.lines = given, dict(given)
            # Who has changed their password has that one, until the file has another one for them.
            for name, seal, stored in kept.ask("SELECT name, seal, hash FROM own"):
                if name in given and seal == sealed("own", *given[name]):
                    self.lines[name] = given[name][0], stored, ""
            self.marks = marks
            known.clear()
            note_sessions(self.lines)

    def find(self, user):
        self.read()
        return self.lines.get(user.lower())

    def change(self, user, word):
        """Gives a user a password of their own."""
        name, new = user.lower(), HASHES.hash(word)
        with lock:
            self.read()
            kept.ask("INSERT OR REPLACE INTO own VALUES (?, ?, ?)", name,
                     sealed("own", *self.given[name]), new)
            self.lines[name] = self.given[name][0], new, ""
            known.clear()
            note_sessions(self.lines)

    def end_sessions(self, user):
        """Ends a user's sessions, and what browsers keep of them."""
        with lock:
            kept.ask("UPDATE users SET since = ? WHERE name = ?", milliseconds(), user.lower())
            write_sessions()


def kept_of(words):
    """A user's hash, or that of nobody, and the digest of their code, or nothing."""
    code = next((word for word in words if word.startswith(codes.MARK)), "")
    return NOBODY if words[0] == code else words[0], code


users = Users()
# Names and passwords of programs on this machine that were right.
known = collections.OrderedDict()


def text_of(name):
    with contextlib.suppress(FileNotFoundError):
        return (FOLDER / name).read_text(encoding="utf-8", errors="replace")
    return ""


def callers():
    """Each name of `callers` in small letters, with who it is, and in which sessions."""
    found = collections.defaultdict(list)
    for session, name, caller in CALLER.findall(text_of("callers")):
        found[name.lower()].append((session, caller))
    # A user of one session keeps theirs when its line gets the session's name.
    return {name: lines[0][1] if len(lines) == 1 else " ".join(sorted(map(" ".join, lines)))
            for name, lines in found.items()}


def programs():
    """Each program, and since when its tokens count (tools/token)."""
    return re.findall(r'^(?:"\S+ )?(program:[^\s"]+)"? .*; # \S+ ([0-9]+)$', text_of("programs"),
                      re.M)


def note_sessions(lines):
    """Notes since when each user's sessions count: a new password or caller ends earlier ones."""
    listed, now = callers(), milliseconds()
    old = {name: (seal, since)
           for name, seal, since in kept.ask("SELECT name, seal, since FROM users")}
    with lock:
        kept.db.execute("BEGIN")
        for name, (_, stored, code) in lines.items():
            word = code if stored == NOBODY else stored + code
            seal = sealed("user", name, word, listed.get(name, ""))
            before, since = old.get(name, ("", 0))
            if before != seal:
                # Sessions of somebody who was removed ended then.
                kept.db.execute("INSERT OR REPLACE INTO users VALUES (?, ?, ?)",
                                (name, seal, now if before else -since))
        for name in {name for name, (seal, _) in old.items() if seal} - set(lines):
            kept.db.execute("UPDATE users SET seal = '', since = ? WHERE name = ?", (-now, name))
        kept.db.execute("COMMIT")
    write_sessions()


def write_sessions():
    """Writes what HAProxy looks up: since when a user's sessions count, and which have ended."""
    with lock:
        kept.ask("DELETE FROM gone WHERE until < ?", int(time.time()))
        since = [*kept.ask("SELECT name, since FROM users WHERE seal <> ''"), *programs()]
        lines = [f"u:{name} {moment}\n" for name, moment in since]
        lines += [f"t:{token} 1\n" for token, in kept.ask("SELECT token FROM gone")]
        part = STATE / ".sessions.map.part"
        part.write_text(f"# {secrets.token_hex()}\n" + "".join(lines))
        part.chmod(0o640)
        part.replace(STATE / "sessions.map")


def is_right(found, word):
    """Whether the word is the user's. An old hash becomes argon2id, in the agent's own file."""
    name, stored, _ = found or ("", NOBODY, "")
    renewed = kept.ask("SELECT hash FROM renewed WHERE name = ? AND seal = ?", name.lower(),
                       sealed("hash", stored))
    current = renewed[0][0] if renewed else stored
    if current.startswith("$argon2"):
        return HASHES.verify(word, current) and found is not None
    if current.startswith("{PLAIN}"):
        right = hmac.compare_digest(current[len("{PLAIN}"):].encode(), word.encode())
    else:
        right = HASHES.verify(word, current)
    # As long as for all others, also if it is wrong.
    new = HASHES.hash(word)
    if right:
        kept.ask("INSERT OR REPLACE INTO renewed VALUES (?, ?, ?)", name.lower(),
                 sealed("hash", stored), new)
    return right


def judged(user, word, address, device):
    """200, 401 or 429. A code is right or wrong, and neither counted nor hashed. Another try is
    counted before its hash, and taken back if the word is right, so that many at once get no
    further than one after another."""
    found = users.find(user)
    if codes.is_right(user, found[2] if found else "", word):
        return 200
    if codes.is_code(word):
        return 401
    # Names that nobody has share some counts, so that they don't fill the memory.
    name = user.lower() if found else f"nobody {int(sealed(user), 16) % 4096}"
    keys = [f"device {device} {name}"] if device else [f"user {name}", f"address {address}"]
    moment = time.time()
    with lock:
        counts.sweep()
        if is_full(name, address, device):
            counts.note(f"refused {address}", NOISY_REFUSALS)
            return 429
        for key in keys:
            counts.add(key, moment)
    right = False
    with hashing, contextlib.suppress(ValueError, passlib.exc.PasswordValueError):
        right = is_right(found, word)
    if right:
        with lock:
            for key in keys:
                counts.take_back(key, moment)
    return 200 if right else 401


def noted(user, word, device):
    """As judged(), with a line in the log of sign-ins."""
    status = judged(user, word, address(), device)
    name = user.lower() if users.find(user) else sign_ins.UNKNOWN
    log.note(name, {200: "right", 401: "wrong", 429: "refused"}[status], address())
    return status


# ---- Tokens

def token(kind, seconds, at=None, **more):
    """A token; sessions.lua knows the order of its claims."""
    return jwt.encode({**more, "k": kind, "h": flask.request.host, "i": at or milliseconds(),
                       "exp": int(time.time()) + seconds}, KEY, algorithm="HS256")


def claims_of(text, kind):
    """What a token of this host says, or nothing."""
    with contextlib.suppress(jwt.InvalidTokenError):
        claims = jwt.decode(text, KEY, algorithms=["HS256"])
        if (claims.get("k"), claims.get("h")) == (kind, flask.request.host):
            return claims
    return {}


def said(cookie, kind):
    return claims_of(flask.request.cookies.get(cookie, ""), kind)


def is_secure():
    return flask.request.headers.get("X-Scheme") == "https"


def cookie_names():
    """Of the session and of the device: only https can set those that begin so."""
    return ("__Host-session", "__Secure-device") if is_secure() else ("session", "device")


def address():
    """The client's address; of IPv6 the network, because a client has all addresses of one."""
    text = flask.request.headers.get("X-Real-IP", "")
    with contextlib.suppress(ValueError):
        found = ipaddress.ip_address(text)
        found = getattr(found, "ipv4_mapped", None) or found
        if found.version == 6:
            return str(ipaddress.ip_network(f"{found}/64", strict=False))
    return text


def is_loopback():
    with contextlib.suppress(ValueError):
        return ipaddress.ip_address(flask.request.headers.get("X-Real-IP", "")).is_loopback
    return False


def wants_page():
    return "text/html" in flask.request.headers.get("Accept", "")


def place_of(text):
    """Where to go afterwards: a path of this host, else the first page."""
    return text if re.fullmatch(r"/([A-Za-z0-9_][A-Za-z0-9_./-]{0,199})?", text) else "/"


def shown(what, user="", place="/", link=""):
    status, words = PAGES[what]
    if wants_page() or status == 200:
        page = flask.render_template("sign-in.html", words=words, user=user, place=place, link=link)
        reply = flask.make_response(page, status)
    else:
        error = {401: "signed-out", 429: "often"}.get(status, "forbidden")
        reply = flask.make_response(flask.jsonify(error=error), status)
    if status in (401, 429):
        reply.headers["X-Failed"] = str(status)
    if status == 429:
        reply.headers["Retry-After"] = str(MINUTE)
    return reply


# ---- What is asked

@app.get("/-/sign-in")
def page():
    if "link" in flask.request.args:
        # It is used by a click, because programs that check mail open every link.
        link = flask.request.args["link"]
        return shown("used") if is_used(claims_of(link, "link")) else shown("offered", link=link)
    return shown("out" if "out" in flask.request.args else None,
                 place=place_of(flask.request.args.get("to", "/")))


def is_used(link):
    return not link or bool(kept.ask("SELECT 1 FROM gone WHERE token = ?", link["j"]))


def by_link(link):
    """Makes this browser one that signed in before, once for each link (tools/token link)."""
    if is_used(link):
        return shown("used")
    kept.ask("INSERT INTO gone VALUES (?, ?)", link["j"], link["exp"])
    reply = shown("link", link["u"])
    add_device(reply, link["u"], {})
    return reply


def mark_of(device, user):
    """What a browser keeps of somebody who signed in on it: it names nobody, and is another one
    after a new password."""
    name = user.lower()
    since = kept.ask("SELECT since FROM users WHERE name = ?", name)
    return sealed("device", device, name, str(since[0][0]) if since else "")[:32]


def set_device(reply, device, people):
    reply.set_cookie(cookie_names()[1], token(
        "device", DEVICE_SECONDS, u=people[-MOST_DEVICE_USERS:], j=device), path="/-/sign-in",
        max_age=DEVICE_SECONDS, httponly=True, secure=is_secure(), samesite="Lax")


def add_device(reply, user, mine):
    """Gives a browser the cookie of those who signed in on it."""
    device = mine.get("j") or secrets.token_urlsafe(12)
    mark = mark_of(device, user)
    set_device(reply, device, [*[it for it in mine.get("u", []) if it != mark], mark])


def leave_device(reply, user, mine):
    """Takes somebody out of a browser's cookie."""
    if mine:
        mark = mark_of(mine["j"], user)
        set_device(reply, mine["j"], [it for it in mine["u"] if it != mark])


@app.post("/-/sign-in")
def sign_in():
    form = flask.request.form
    user, word = form.get("user", "").strip()[:LONGEST_NAME], form.get("password", "")
    place = place_of(form.get("to", "/"))
    if not is_secure() and not is_loopback():
        return shown("tls")
    if "link" in flask.request.args:
        return by_link(claims_of(flask.request.args["link"], "link"))
    if len(word) > LONGEST_PASSWORD:
        return shown("wrong", user, place)
    mine = said(cookie_names()[1], "device")
    knows = mark_of(mine.get("j", ""), user) in mine.get("u", [])
    status = noted(user, word, mine["j"] if knows else None)
    if status != 200:
        return shown("often" if status == 429 else "wrong", user, place)
    with lock:
        if counts.lately(f"right {user.lower()}", KEPT_SECONDS) >= SIGN_INS_OF_USER:
            return shown("fast", user, place)
        counts.note(f"right {user.lower()}", SIGN_INS_OF_USER)
    if not knows:
        log.note(user.lower(), "new_browsers", address())
    reply = flask.redirect(place, 303)
    set_session(reply, user)
    if "strange" in form:
        # Somebody else's computer.
        leave_device(reply, user, mine)
    else:
        add_device(reply, user, mine)
    return reply


@app.get("/-/sign-ins")
def lately_tried():
    """For the registry, and nginx lets nobody else ask."""
    return flask.jsonify(sign_ins=log.summary())


def signed_in():
    """Who is signed in by a session that counts, or nothing."""
    claims = said(cookie_names()[0], "session")
    since = claims and kept.ask("SELECT since FROM users WHERE name = ?", claims["u"].lower())
    if not since or claims["i"] < since[0][0] or not users.find(claims["u"]) or kept.ask(
            "SELECT 1 FROM gone WHERE token = ?", claims["j"]):
        return ""
    return claims["u"]


def end_session(session, until):
    """Ends a session, whatever later ends its tokens got."""
    before = kept.ask("SELECT 1 FROM gone WHERE token = ?", session)
    if not before:
        kept.ask("INSERT INTO gone VALUES (?, ?)", session, until)
        signed_in_on.remove(session)
        write_sessions()


def password_page(what, user):
    status, words = PAGES[what]
    here = said(cookie_names()[0], "session").get("j")
    lines = [{"number": sealed("shown", session)[:32], "browser": browser, "address": source,
              "since": time.strftime("%A, %H:%M", time.localtime(at // 1000)),
              "is_here": session == here}
             for session, at, _, source, browser in signed_in_on.of(user)]
    reply = flask.make_response(flask.render_template(
        "password.html", words=words, user=user, browsers=lines), status)
    if status in (401, 429):
        reply.headers["X-Failed"] = str(status)
    return reply


@app.get("/-/sign-in/password")
def present_password():
    user = signed_in()
    return password_page(None, user) if user else flask.redirect("/-/sign-in", 303)


@app.post("/-/sign-in/password")
def change_password():
    """Who is signed in and knows their password gets another one, or ends all their sessions."""
    form, user = flask.request.form, signed_in()
    word, new = form.get("password", ""), form.get("new", "")
    if not user or not is_secure() and not is_loopback():
        return flask.redirect("/-/sign-in", 303)
    if "everywhere" in form:
        users.end_sessions(user)
        return shown("everywhere")
    if "end" in form:
        for session, _, until, *_ in signed_in_on.of(user):
            if sealed("shown", session)[:32] == form["end"]:
                end_session(session, until)
        return password_page("ended", user) if signed_in() else shown("out")
    mine = said(cookie_names()[1], "device")
    knows = mark_of(mine.get("j", ""), user) in mine.get("u", [])
    status = noted(user, word[:LONGEST_PASSWORD + 1], mine["j"] if knows else None)
    if status != 200:
        return password_page("often" if status == 429 else "wrong", user)
    if new == word:
        return password_page("same", user)
    if (codes.is_code(new) or len(new) > LONGEST_PASSWORD
            or zxcvbn.zxcvbn(new[:JUDGED], user_inputs=[user])["score"] < LEAST_SCORE):
        return password_page("new", user)
    users.change(user, new)
    reply = password_page("changed", user)
    set_session(reply, user)
    add_device(reply, user, mine)
    return reply


def set_session(reply, user):
    session, at = secrets.token_urlsafe(12), milliseconds()
    signed_in_on.add(session, user, at, at // 1000 + SESSION_LONGEST, address(),
                     flask.request.headers.get("User-Agent", ""))
    reply.set_cookie(cookie_names()[0], token(
        "session", min(SESSION_UNUSED, SESSION_LONGEST), at, u=users.find(user)[0], j=session),
        path="/", httponly=True, secure=is_secure(), samesite="Lax")


@app.post("/-/sign-out")
def sign_out():
    session, _ = cookie_names()
    claims = said(session, "session")
    if claims:
        end_session(claims["j"], claims["i"] // 1000 + SESSION_LONGEST)
    reply = flask.redirect("/-/sign-in?out", 303)
    reply.delete_cookie(session, path="/", secure=is_secure(), httponly=True, samesite="Lax")
    return reply


@app.errorhandler(405)
def wrong_method(fault):
    allowed = ", ".join(sorted({*fault.valid_methods} - {"OPTIONS"}))
    return flask.jsonify(error="method"), 405, {"Allow": allowed}


@app.get("/who")
def who():
    """Basic, for programs on this machine; a right password is remembered until files change."""
    text = flask.request.headers.get("Authorization", "").partition(" ")[2]
    try:
        user, _, word = base64.b64decode(text, validate=True).decode().partition(":")
    except ValueError:
        return "", 401
    found, seal = users.find(user), sealed("basic", user, word)
    if not is_loopback() or len(word) > LONGEST_PASSWORD:
        return "", 401
    if seal not in known:
        status = noted(user, word, None)
        if status != 200:
            return "", 403 if status == 429 else 401, {"X-Failed": str(status)}
        known[seal] = True
        while len(known) > MOST_KNOWN:
            known.popitem(last=False)
    return "", 200, {"X-Auth-Request-User": found[0]}


def watch():
    """Reads the files again when they change, so that who is no longer a user is nobody soon."""
    while True:
        with contextlib.suppress(OSError):
            users.read()
        with contextlib.suppress(sqlite3.Error):
            log.write()
            signed_in_on.sweep()
        time.sleep(1)


users.read()
threading.Thread(target=watch, daemon=True).start()
