"""Files of late changes as student systems and spreadsheets write them, with what each comes to.

They are for one session: CSV files of the small example with other enrolments, and two changes that
were made here. A plan is typed by hand: pairs that are added and dropped, who is new, what is kept
or left as it is; or the faults, and then nothing is sent.
"""
import gzip

CHANGES, LIST = "changes", "list"
ENROLMENTS = """student,name,exam
s1,Ada Archer,MATH101
s1,Ada Archer,PHYS102
s2,Ben Baker,MATH101
s2,Ben Baker,MATH102
s3,Cleo Carter,MATH102
s3,Cleo Carter,PHYS101
0007,Zoë D'Angelo,PHYS101
41,Bo Łukasz,PHYS102
05,Eve Earl,MATH101
005,Finn Fox,MATH102
"""
# What was changed here after that.
HERE = "student,exam,action\ns2,PHYS101,add\n05,MATH101,drop\n"
ADDED_HERE, DROPPED_HERE = "s2 PHYS101 add", "05 MATH101 drop"
HEADER = "student,exam,action\n"
ADD = f"{HEADER}s1,MATH102,add\n"
LATIN = "is read as Latin-1"


def plan(add="", drop="", new="", already=0, kept=None, names="", longer="", strangers="",
         notes=(), guards=""):
    """What a file without a fault comes to; lists of texts are separated by semicolons."""
    def texts(text):
        return sorted(one.strip() for one in text.split(";") if one.strip())

    return {"add": texts(add), "drop": texts(drop), "new": texts(new), "already": already,
            "kept": sorted(kept or ()), "names": texts(names), "longer": texts(longer),
            "strangers": texts(strangers), "notes": list(notes), "guards": texts(guards)}


def whole(*more, without="", old="", new=""):
    """The whole list, without a line, or with another text in it, and with more lines."""
    assert without in ENROLMENTS and old in ENROLMENTS
    text = ENROLMENTS.replace(without, "") if without else ENROLMENTS
    return (text.replace(old, new) if old else text) + "".join(f"{line}\n" for line in more)


def listed(add="", kept=(ADDED_HERE, DROPPED_HERE), **more):
    """What a whole list comes to; it keeps what was changed here."""
    return plan(add, kept=kept, **more)


PLAIN = plan("s1 MATH102")
ZOE = plan("r9 MATH101", new="r9 Zoë Zander")
ZOES = f"{HEADER[:-1]},name\nr9,MATH101,new,Zoë Zander\n"
NOTHING = listed()
MARK = "has a mark that nobody sees, such as one of direction"
SIGN = "has a sign that nobody sees"

# A name, the kind, the text or bytes, and what it comes to: a plan, or a list of faults.
FILES = [
    # ---- Lines of changes: what they mean
    ("a line", CHANGES, ADD, PLAIN),
    ("one who is dropped", CHANGES, f"{HEADER}s1,MATH101,drop\n", plan(drop="s1 MATH101")),
    ("added, then dropped", CHANGES, f"{HEADER}s1,MATH102,add\ns1,MATH102,drop\n",
     plan(already=1)),
    ("dropped, then added", CHANGES, f"{HEADER}s1,MATH101,drop\ns1,MATH101,add\n",
     plan(already=1)),
    ("dropped, added, dropped", CHANGES,
     f"{HEADER}s1,MATH101,drop\ns1,MATH101,add\ns1,MATH101,drop\n", plan(drop="s1 MATH101")),
    ("the last line decides, others between", CHANGES,
     f"{HEADER}s1,MATH102,add\ns2,MATH101,drop\ns3,MATH101,add\ns1,MATH102,drop\n"
     "s2,MATH101,add\n", plan("s3 MATH101", already=2)),
    ("the same line twice", CHANGES, f"{ADD}s1,MATH102,add\n", PLAIN),
    ("two exams of one student", CHANGES, f"{HEADER}s1,MATH102,add\ns1,PHYS102,drop\n",
     plan("s1 MATH102", "s1 PHYS102")),
    ("what is so already", CHANGES, f"{HEADER}s1,MATH101,add\ns1,MATH102,drop\n",
     plan(already=2)),
    ("other words", CHANGES,
     f"{HEADER}s1,MATH102,Enrolled\ns3,MATH101,+\ns1,MATH101,WITHDRAWN\ns2,MATH102,-\n",
     plan("s1 MATH102; s3 MATH101", "s1 MATH101; s2 MATH102")),
    ("an unknown action", CHANGES, f"{HEADER}s1,MATH102,ad\n",
     ["line 2, action: 'ad' is no action; add, drop or new is expected"]),
    ("an empty action", CHANGES, f"{HEADER}s1,MATH102,\n",
     ["line 2, action: '' is no action; add, drop or new is expected"]),
    ("no column of actions", CHANGES, "Student ID;Exam code\ns1;MATH102\n",
     ["line 1, action: this column is missing (there are: Student ID, Exam code)"]),
    # ---- Who is meant
    ("an unknown ID", CHANGES, f"{HEADER}A3,MATH101,add\n",
     ["line 2, student: A3: no such student. s3 is Cleo Carter"]),
    ("an ID in capital letters", CHANGES, f"{HEADER}S1,MATH102,add\n",
     ["line 2, student: S1: no such student. s1 is Ada Archer"]),
    ("a new ID beside one in small letters", CHANGES, f"{HEADER}S1,MATH102,new\n",
     plan("S1 MATH102", new="S1")),
    ("a name in place of an ID", CHANGES, f"{HEADER}bo lukasz,MATH101,add\n",
     ["line 2, student: bo lukasz: no such student. 41 is Bo Łukasz"]),
    ("the office's number", CHANGES, f"{HEADER}3,MATH101,add\n",
     ["line 2, student: 3: no such student. s3 is Cleo Carter"]),
    ("an ID without its zeros", CHANGES, f"{HEADER}7,MATH101,add\n", plan("0007 MATH101")),
    ("an ID with more zeros", CHANGES, f"{HEADER}0041,MATH101,add\n", plan("41 MATH101")),
    ("an ID as a formula, for its zeros", CHANGES, f'{HEADER}="0007",MATH101,add\n',
     plan("0007 MATH101")),
    ("the same, quoted", CHANGES, f'{HEADER}"=""0007""",MATH101,add\n', plan("0007 MATH101")),
    ("an ID of two readings", CHANGES, f"{HEADER}5,MATH101,add\n",
     ["line 2, student: 5 may be 05 or 005, which differ in leading zeros only"]),
    ("two of them, with their zeros", CHANGES, f"{HEADER}05,PHYS102,add\n005,PHYS102,add\n",
     plan("05 PHYS102; 005 PHYS102")),
    ("one ID in two forms", CHANGES, f"{HEADER}7,MATH101,add\n0007,MATH102,add\n",
     ["line 2, student: 7 and 0007 are both there; they differ in leading zeros only, so who is "
      "who is unknown"]),
    ("a rounded ID", CHANGES, f"{HEADER}2.03E+09,MATH101,new\n",
     ["line 2, student: 2.03E+09 is what a spreadsheet made of an ID that it took for a number; "
      "export it as text"]),
    ("an ID with decimals", CHANGES, f"{HEADER}41.0,MATH101,add\n",
     ["line 2, student: 41.0 is what a spreadsheet made of an ID that it took for a number; "
      "export it as text"]),
    ("a mark in an ID", CHANGES, f"{HEADER}s\u200b1,MATH102,add\n",
     [f"line 2, student: 's\\u200b1' {MARK} (U+200B)"]),
    ("a sign without a shape in an ID", CHANGES, f"{HEADER}s1\ufe0f,MATH102,new\n",
     [f"line 2, student: 's1\ufe0f' {SIGN} (U+FE0F)"]),
    ("a mark in a code", CHANGES, f"{HEADER}s1,MATH\u00ad102,add\n",
     [f"line 2, exam: 'MATH\\xad102' {MARK} (U+00AD)"]),
    ("a mark in a name", CHANGES, f"{HEADER[:-1]},name\ns1,MATH102,add,Ada \u202eArcher\n",
     [f"line 2, name: 'Ada \\u202eArcher' {MARK} (U+202E)"]),
    ("blanks around", CHANGES, f"{HEADER}\u00a0s1 ,  MATH102\u00a0, add \n", PLAIN),
    ("no student", CHANGES, f"{HEADER},MATH102,add\n", ["line 2, student: the field is empty"]),
    # ---- Exams
    ("an unknown code", CHANGES, f"{HEADER}s1,MATH1O2,add\n",
     ["line 2, exam: MATH1O2: no such exam. MATH102 is Linear algebra"]),
    ("a title in place of a code", CHANGES, f"{HEADER}s1,calculus,add\n",
     ["line 2, exam: calculus: no such exam. MATH101 is Calculus"]),
    ("no exam", CHANGES, f"{HEADER}s1,,add\n", ["line 2, exam: the field is empty"]),
    ("each fault has its line", CHANGES, f"{HEADER}s1,MATH102,add\n\nX9,MATH102,add\ns2,,drop\n",
     ["line 4, student: X9: no such student", "line 5, exam: the field is empty"]),
    # ---- Names beside IDs
    ("somebody else's name", CHANGES, f"{HEADER[:-1]},name\ns2,PHYS102,add,Ada Archer\n",
     ["line 2, name: s2 is Ben Baker, not Ada Archer"]),
    ("a name of which one word is the same", CHANGES,
     f"{HEADER[:-1]},name\ns1,MATH102,add,Ada Baker\n",
     ["line 2, name: s1 is Ada Archer, not Ada Baker"]),
    ("a name in capital letters, without accents", CHANGES,
     f"{HEADER[:-1]},name\n0007,MATH101,add,ZOE DANGELO\n", plan("0007 MATH101")),
    ("the family name first, with another apostrophe", CHANGES,
     f'{HEADER[:-1]},name\n0007,MATH101,add,"D’Angelo, Zoë"\n41,MATH101,add,"Lukasz, Bo"\n',
     plan("0007 MATH101; 41 MATH101")),
    ("a name of letters with marks of their own", CHANGES,
     f"{HEADER[:-1]},name\n0007,MATH101,add,Zoe\u0308 D'Angelo\n", plan("0007 MATH101")),
    ("no name on the line", CHANGES, f"{HEADER[:-1]},name\ns1,MATH102,add,\n", PLAIN),
    # ---- New students
    ("a new student", CHANGES, ZOES, ZOE),
    ("one without an exam", CHANGES, f"{HEADER[:-1]},name\nr9,,new,Zoë Zander\n",
     plan(new="r9 Zoë Zander")),
    ("one with two exams", CHANGES, f"{ZOES}r9,MATH102,add,\n",
     plan("r9 MATH101; r9 MATH102", new="r9 Zoë Zander")),
    ("one who is called new on a later line", CHANGES,
     f"{HEADER[:-1]},name\nr9,MATH102,add,\nr9,MATH101,new,Zoë Zander\n",
     plan("r9 MATH101; r9 MATH102", new="r9 Zoë Zander")),
    ("one who is known, by the same name", CHANGES,
     f"{HEADER[:-1]},name\ns1,MATH102,new,Archer Ada\n", PLAIN),
    ("one who is known, by another name", CHANGES,
     f"{HEADER[:-1]},name\ns1,MATH102,new,Zoë Zander\n",
     ["line 2, student: s1 is Ada Archer already"]),
    ("one who is known, without a name", CHANGES, f"{HEADER}s1,MATH102,new\n",
     ["line 2, student: s1 is Ada Archer already"]),
    ("one with two names", CHANGES, f"{ZOES}r9,MATH102,add,Quo Quin\n",
     ["line 3, name: r9 is Zoë Zander on another line, not Quo Quin"]),
    # ---- Forms of files
    ("a mark of UTF-8 in front", CHANGES, f"\ufeff{ADD}".encode(), PLAIN),
    ("ends of lines of Windows", CHANGES, ADD.replace("\n", "\r\n"), PLAIN),
    ("ends of lines of old Macs", CHANGES, ADD.replace("\n", "\r"), PLAIN),
    ("no end of the last line", CHANGES, ADD[:-1], PLAIN),
    ("semicolons", CHANGES, ADD.replace(",", ";"), PLAIN),
    ("tabs", CHANGES, ADD.replace(",", "\t"), PLAIN),
    ("the separator in a first line", CHANGES, f"sep=;\r\n{ADD.replace(',', ';')}", PLAIN),
    ("LibreOffice, each text quoted", CHANGES,
     '"Student ID","Exam code","Action"\n"s1","MATH102","add"\n', PLAIN),
    ("LibreOffice, with empty cells and lines", CHANGES,
     "Student ID;Exam code;Action;;\n;;;;\ns1;MATH102;add;;\n;;;;\n", PLAIN),
    ("Unicode text of Excel", CHANGES,
     b"\xff\xfe" + ZOES.replace(",", "\t").encode("utf-16-le"),
     {**ZOE, "notes": ["is read as utf-16"]}),
    ("UTF-16 of another machine", CHANGES, b"\xfe\xff" + ADD.encode("utf-16-be"),
     {**PLAIN, "notes": ["is read as utf-16"]}),
    ("UTF-16 without a mark", CHANGES, ADD.encode("utf-16-le"),
     {**PLAIN, "notes": ["is read as utf-16-le"]}),
    ("Latin-1", CHANGES, ZOES.encode("latin-1"), {**ZOE, "notes": [LATIN]}),
    ("Latin-1 of Windows, with its apostrophe", CHANGES,
     f"{HEADER[:-1]},name\n0007,MATH101,add,Zoë D’Angelo\n".encode("cp1252"),
     plan("0007 MATH101", notes=[LATIN])),
    ("damaged UTF-8", CHANGES, f"{HEADER[:-1]},name\nr9,MATH101,new,Zoë\nr8,".encode() + b"\xeb",
     ["line 3: this is neither UTF-8 nor Latin-1 nor UTF-16 text; save the file as CSV UTF-8"]),
    ("compressed", CHANGES, gzip.compress(ADD.encode()), PLAIN),
    ("a workbook", CHANGES, b"PK\x03\x04 and so on",
     ["this is a workbook of a spreadsheet, or another ZIP file; save the sheet as CSV UTF-8"]),
    ("a remark of two lines", CHANGES,
     'student,exam,action,remark\ns1,MATH102,add,"moved, ""late""\nin May"\nX9,MATH102,add,\n',
     ["line 4, student: X9: no such student"]),
    ("a stray quote", CHANGES, f'{HEADER}"s1"x,MATH102,add\n',
     ["line 2: this is not CSV: ',' expected after '\"'"]),
    ("a quote that isn't closed", CHANGES, f'{HEADER}s1,MATH102,"add\n',
     ["line 2: this is not CSV: unexpected end of data"]),
    ("more fields than columns", CHANGES, f"{HEADER}s1,MATH102,add,x,y\n", PLAIN),
    ("other names of columns", CHANGES, "Matriculation No.;Unit code;Status\ns1;MATH102;enrol\n",
     PLAIN),
    ("no column for exams", CHANGES, "student,action\ns1,add\n",
     ["line 1, exam: this column is missing (there are: student, action)"]),
    ("two columns for exams", CHANGES, "student,course code,module code,action\ns1,a,b,add\n",
     ["line 1, exam: there are two such columns: course code and module code"]),
    ("no line", CHANGES, HEADER, ["there is no line after the first"]),
    ("nothing", CHANGES, "", [f"line 1, {column}: this column is missing (there are: )"
                              for column in ("student", "exam", "action")]),
    # ---- Whole lists
    ("the same list", LIST, whole(), NOTHING),
    ("in another form and order", LIST, "Student ID;Course code\r\n" + "".join(
        f"{line.split(',')[0]};{line.split(',')[2]}\r\n"
        for line in ENROLMENTS.splitlines()[:0:-1]), NOTHING),
    ("one more", LIST, whole("s1,Ada Archer,MATH102"), listed("s1 MATH102")),
    ("one less", LIST, whole(without="s1,Ada Archer,PHYS102\n"),
     listed(drop="s1 PHYS102", guards="shorter")),
    ("two lines of one enrolment", LIST, whole("s1,Ada Archer,MATH101"), NOTHING),
    ("what was changed here is in the list now", LIST, whole("s2,Ben Baker,PHYS101"),
     listed(already=1, kept=[DROPPED_HERE])),
    ("a list that was cut off", LIST, ENROLMENTS[:ENROLMENTS.index("41,")],
     listed(drop="005 MATH102; 41 PHYS102", kept=[ADDED_HERE], already=1,
            guards="shorter; drops")),
    ("a state that ended", LIST, "student,exam,status\n" + "".join(
        f"{one.split(',')[0]},{one.split(',')[2]},{'withdrawn' if 's1' in one else 'enrolled'}\n"
        for one in ENROLMENTS.splitlines()[1:]),
     listed(drop="s1 MATH101; s1 PHYS102", guards="shorter; drops")),
    ("a state that ended on a later line", LIST, "student,exam,status\n" + "".join(
        f"{one.split(',')[0]},{one.split(',')[2]},enrolled\n"
        for one in ENROLMENTS.splitlines()[1:]) + "s1,MATH101,withdrawn\nr9,MATH101,withdrawn\n",
     listed(drop="s1 MATH101", guards="shorter")),
    ("an empty state", LIST, "student,exam,status\ns1,MATH101,\n",
     ["line 2, action: '' is no status; enrolled or withdrawn is expected"]),
    ("an unknown state", LIST, "student,exam,status\ns1,MATH101,active\n",
     ["line 2, action: 'active' is no status; enrolled or withdrawn is expected"]),
    ("a new student of a list", LIST, whole("r9,Zoë Zander,MATH101"),
     listed("r9 MATH101", new="r9 Zoë Zander", guards="new")),
    ("a new ID of a list beside one in small letters", LIST, whole("S1,,MATH102"),
     listed("S1 MATH102", new="S1", guards="new")),
    ("a new name", LIST, whole(old="Cleo Carter", new="Cleo Carter-Cole"),
     listed(names="s3 Cleo Carter-Cole")),
    ("a name in another form", LIST, whole(old="Bo Łukasz", new="LUKASZ, BO".replace(",", "")),
     NOTHING),
    ("a name that shares no word", LIST,
     whole("s2,Dan Drew,PHYS102", "s1,,MATH102", old="Ben Baker", new="Dan Drew"),
     listed("s1 MATH102", kept=[DROPPED_HERE], strangers="s2 Dan Drew")),
    ("a name that shares an initial only", LIST, whole(old="Finn Fox", new="F. Fish"),
     listed(strangers="005 F. Fish")),
    ("a new ID with names of two people", LIST, whole("r9,Zoë Zander,MATH101", "r9,Quo,MATH102"),
     listed(strangers="r9 Quo")),
    ("Latin-1 names", LIST, whole(old="Bo Łukasz", new="Bo Lukasz").encode("latin-1"),
     {**NOTHING, "notes": [LATIN]}),
    ("an ID that has its zeros again", LIST, whole(old="41,", new="0041,"),
     listed(longer="41 0041")),
    ("an ID that lost its zeros", LIST, whole(old="0007,", new="7,"), NOTHING),
    ("an ID of two readings in a list", LIST, whole(old="05,Eve", new="5,Eve").replace(
        "005,Finn", "5,Finn"), [
        f"line {line}, student: 5 may be 05 or 005, which differ in leading zeros only"
        for line in (10, 11)]),
    ("one ID in two forms in a list", LIST, whole("0041,Bo Łukasz,MATH101"),
     ["line 12, student: 0041 and 41 are both there; they differ in leading zeros only, so who is "
      "who is unknown"]),
    ("a rounded ID in a list", LIST, whole("2.03E+09,Zoë Zander,MATH101"),
     ["line 12, student: 2.03E+09 is what a spreadsheet made of an ID that it took for a number; "
      "export it as text"]),
    ("a list without a line", LIST, "student,name,exam\n", ["there is no line after the first"]),
]


def content_of(content):
    return content if isinstance(content, bytes) else content.encode()
