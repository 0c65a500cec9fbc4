#!/usr/bin/env python3
"""oracle.py [--why --student N | --json] INSTANCE SOLUTION: the reports, word by word and slowly.
oracle.py compare INSTANCE A B: what differs between two solutions.

It reads only well-formed files, adds up, for each two exams, what each student of both pays for
them, and keeps no index: a third opinion beside the two fast checkers. With a student it also lists
what that student pays, and with --json it prints an object in place of the reports.
"""
import argparse
import json
import sys
from datetime import date
from itertools import combinations

RULES = ["Duration", "Clash", "Capacity", "After", "Coincidence", "Exclusion", "RoomExclusive"]
PARTS = ["two in a row", "two in a day", "period spread", "over night", "mixed durations",
         "front load", "period penalty", "room penalty"]
KINDS = ["row", "day", "spread", "night"]
NAMES = [*KINDS, "mixed", "front", "period", "room"]


def read(path):
    sections, section = {}, None
    for line in open(path, newline="").read().split("\n"):
        line = line.strip(" \t\r")
        if line.startswith("["):
            section = sections.setdefault(line[1:].split(":")[0].rstrip("]").strip().lower(), [])
        elif line:
            fields = [field.strip(" \t") for field in line.split(",")]
            section.append(fields[:-1] if len(fields) > 1 and not fields[-1] else fields)
    return sections


def exams_in(sections):
    return [(int(f[0]), frozenset(map(int, f[1:]))) for f in sections["exams"]]


def periods_in(sections):
    return [(date(*map(int, f[0].split(":")[::-1])), int(f[2]), int(f[3]))
            for f in sections["periods"]]


def weights_in(sections):
    return {f[0].upper(): list(map(int, f[1:])) for f in sections["institutionalweightings"]}


def costs(periods, weights, p, q):
    """What a student pays for exams in two periods: in a row, in a day, in the spread, at night."""
    row, day, reach, night = (weights.get(w, [0])[0] for w in
                              ["TWOINAROW", "TWOINADAY", "PERIODSPREAD", "OVERNIGHT"])
    gap, days = abs(p - q), abs((periods[p][0] - periods[q][0]).days)
    return [row * (days == 0 and gap == 1), day * (days == 0 and gap >= 2),
            int(1 <= gap <= reach), night * (days == 1 and gap == 1)]


def judge(sections, placed):
    exams, periods, weights = exams_in(sections), periods_in(sections), weights_in(sections)
    rooms = [(int(f[0]), int(f[1])) for f in sections["rooms"]]
    mixed = weights.get("NONMIXEDDURATIONS", [0])[0]
    front_exams, front_periods, front = weights.get("FRONTLOAD", [0, 0, 0])
    at = {}
    for exam, place in enumerate(placed):
        at.setdefault(place, []).append(exam)

    parts, breaches = [0] * 8, set()
    for e, (minutes, _) in enumerate(exams):
        if minutes > periods[placed[e][0]][1]:
            breaches.add((0, e, e))
    for e, f in combinations(range(len(exams)), 2):
        shared = len(exams[e][1] & exams[f][1])
        p, q = placed[e][0], placed[f][0]
        if shared and p == q:
            breaches.add((1, e, f))
        for kind, cost in enumerate(costs(periods, weights, p, q)):
            parts[kind] += shared * cost
    for (_, room), group in at.items():
        if sum(len(exams[e][1]) for e in group) > rooms[room][0]:
            breaches |= {(2, e, e) for e in group}
        parts[4] += (len({exams[e][0] for e in group}) - 1) * mixed
    for a, word, b in sections["periodhardconstraints"]:
        a, b = int(a), int(b)
        p, q = placed[a][0], placed[b][0]
        word, pair = word.upper(), (min(a, b), max(a, b))
        if a != b and word == "AFTER" and p <= q:
            breaches.add((3, a, b))
        if a != b and word == "EXAM_COINCIDENCE" and p != q and not exams[a][1] & exams[b][1]:
            breaches.add((4, *pair))
        if a != b and word == "EXCLUSION" and p == q:
            breaches.add((5, *pair))
    for fields in sections["roomhardconstraints"]:
        a = int(fields[0])
        breaches |= {(6, a, f) for f in at[placed[a]] if f != a}
    largest = sorted(range(len(exams)), key=lambda e: (-len(exams[e][1]), e))[:front_exams]
    parts[5] = sum(front for e in largest if placed[e][0] + front_periods >= len(periods))
    parts[6] = sum(periods[p][2] for p, _ in placed)
    parts[7] = sum(rooms[r][1] for _, r in placed)
    return sorted(breaches), parts


def summands(sections, placed, student):
    """What the student pays for each two of their exams, kind by kind, and the sum."""
    periods, weights = periods_in(sections), weights_in(sections)
    own = [e for e, (_, students) in enumerate(exams_in(sections)) if student in students]
    paid = [(kind, e, f, cost) for f in own for e in own if e < f
            for kind, cost in enumerate(costs(periods, weights, placed[e][0], placed[f][0]))
            if cost]
    for kind, e, f, cost in sorted(paid, key=lambda one: (one[0], one[2], one[1])):
        yield f"{KINDS[kind]} {e} {f} 1 {cost}"
    yield f"student {student} {sum(cost for *_, cost in paid)}"


def places(path):
    with open(path, encoding="latin-1") as file:
        return [tuple(int(x) for x in line.split(",")[:2])
                for line in file.read().split("\n") if line.strip()]


def compare(sections, before, after):
    """What differs between two timetables."""
    moved = [e for e, (p, q) in enumerate(zip(before, after)) if p != q]
    exams = exams_in(sections)
    yield f"moved {len(moved)}"
    for e in moved:
        yield " ".join(map(str, (e, *before[e], *after[e])))
    yield f"candidates {len({s for e in moved for s in exams[e][1]})}"
    (old, parts), (new, others) = judge(sections, before), judge(sections, after)
    for name, p, q in zip([*PARTS, "total"], [*parts, sum(parts)], [*others, sum(others)]):
        yield f"{name} {p} {q}"
    for name, breaches in (("gained", set(new) - set(old)), ("lost", set(old) - set(new))):
        first, *lines = listed(sorted(breaches))
        yield from (f"{name} {first}", *lines)


def listed(breaches):
    yield f"breaches {len(breaches)}"
    for rule, exam, other in breaches:
        yield f"{RULES[rule]} {exam} {other}"


def report(breaches, parts):
    yield from listed(breaches)
    for name, number in zip(PARTS, parts):
        yield f"{name} {number}"
    yield f"total {sum(parts)}"


def as_object(path, breaches, parts):
    broken = [{"exam": exam, "other": other, "rule": RULES[rule]}
              for rule, exam, other in breaches]
    return json.dumps({**dict(zip(NAMES, parts)), "breaches": len(breaches), "broken": broken,
                       "path": path, "total": sum(parts)}, sort_keys=True, ensure_ascii=False,
                      separators=(",", ":"))


def words():
    parser = argparse.ArgumentParser(description=__doc__)
    parser.add_argument("--why", action="store_true")
    parser.add_argument("--student", type=int)
    parser.add_argument("--json", action="store_true")
    parser.add_argument("instance")
    parser.add_argument("solution")
    return parser.parse_args()


def main():
    if sys.argv[1:2] == ["compare"]:
        instance, before, after = sys.argv[2:]
        print("\n".join(compare(read(instance), places(before), places(after))))
        return
    given = words()
    placed, sections = places(given.solution), read(given.instance)
    breaches, parts = judge(sections, placed)
    if given.json:
        print(as_object(given.solution, breaches, parts))
    else:
        print("\n".join(report(breaches, parts)))
    if given.student is not None:
        print("\n".join(summands(sections, placed, given.student)))
    sys.exit(3 if breaches else 0)


if __name__ == "__main__":
    main()
