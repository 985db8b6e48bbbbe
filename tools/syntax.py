#!/usr/bin/env python3
"""The last sections of crates/spl/data/syntax.vectors: lines `parse HEX -> ANSWER`, answered by bench/reference.py.

    syntax.py                     prints them
"""
import os
import sys

TOP = os.path.join(os.path.dirname(os.path.abspath(__file__)), "..")
FORMS = os.path.join(TOP, "crates/spl/data/forms.spl")

sys.dont_write_bytecode = True
sys.path.insert(0, os.path.join(TOP, "bench"))
import reference


def answer(source):
    return reference.answer("parse " + (source.hex() or "-"))


# ---------------------------------------------------------------------------------------------
# The sections of the table
# ---------------------------------------------------------------------------------------------

def say(comment):
    print("# " + comment)


def line(text):
    source = text.encode("ascii")
    print("parse %s -> %s" % (source.hex() or "-", answer(source)))


def wanted(text, verdict):
    """A line whose answer is known beforehand: a number of a refusal with its place, or None."""
    got = answer(text.encode("ascii"))
    assert got.startswith("ok") if verdict is None else got == "no %d %d" % verdict, (text, got, verdict)
    line(text)


# What stands before an opener, the opener, and what follows it, which ends the statement. A level is counted where the
# second part begins, and what follows opens none.
OPENERS = (
    ("BEGIN", "", "BEGIN", " END"),
    ("IF", "", "IF", " A THEN"),
    ("WHILE", "", "WHILE", " A DO"),
    ("DO", "", "DO", " UNTIL A"),
    ("CASE", "", "CASE", " I OF BEGIN END"),
    ("FOR", "", "FOR", " I:=1 UNTIL 2 DO"),
    ("LNOT", "A:=", "LNOT", " A"),
    ("a parenthesis", "I:=", "(", "1)"),
    ("a subscript", "I:=X", "(", "1)"),
    ("a subscript left of :=", "X", "(", "1):=2"),
    ("INTEGER( )", "I:=INTEGER", "(", "A)"),
    ("LOGICAL( )", "A:=LOGICAL", "(", "I)"),
)


def within(count, part):
    """A statement in that many BEGINs, the outer one among them; and its place."""
    front = "BEGIN " * count
    return front + part + " END" * count + ".", len(front)


def levels():
    for name, before, opener, after in OPENERS:
        say("%s at level 32, then at level 33; the levels above are BEGINs" % name)
        text, _ = within(31, before + opener + after)
        wanted(text, None)
        text, place = within(32, before + opener + after)
        wanted(text, (6, place + len(before)))
    say("each part of a statement stands at the statement's level: its conditions, values and both branches, refused at 33")
    for part, at in (
            ("IF (A) THEN", 3), ("IF A AND (A) THEN", 9), ("IF A OR (A) THEN", 8), ("IF A THEN BEGIN END", 10),
            ("IF A THEN ELSE BEGIN END", 15), ("WHILE (A) DO", 6), ("WHILE A DO BEGIN END", 11),
            ("DO BEGIN END UNTIL A", 3), ("DO UNTIL (A)", 9), ("CASE (I) OF BEGIN END", 5),
            ("CASE I OF BEGIN ; BEGIN END END", 18), ("FOR I:=(1) UNTIL 2 DO", 7), ("FOR I:=1 STEP (1) UNTIL 2 DO", 14),
            ("FOR I:=1 UNTIL (2) DO", 15), ("FOR I:=1 UNTIL 2 DO BEGIN END", 20)):
        text, place = within(31, part)
        wanted(text, (6, place + at))
    say("a level ends with what opened it: one after another at level 32")
    for part in ("BEGIN END;BEGIN END", "IF A THEN;IF A THEN ELSE;DO UNTIL A;WHILE A DO;CASE I OF BEGIN END",
                 "A:=LNOT A LAND LNOT B", "I:=(1)+(2)*X(3)-INTEGER(A)", "X(1):=(2)", "X(1).(0:8):=X(2)"):
        wanted(within(31, part)[0], None)
    say("the parentheses of fields, shifts and bounds open none, nor does the BEGIN of a CASE")
    for part in ("I.(0:8):=I.(0:8)&LSL(3)", "CASE I OF BEGIN I:=1;I:=2 END"):
        wanted(within(32 if part[0] == "I" else 31, part)[0], None)


def forms():
    say("each operator, shift and constant")
    for operator in ("*", "/", " MOD ", "+", "-", "=", "<>", "<", "<=", ">", ">=", " LAND ", " XOR ", " LOR "):
        wanted("BEGIN A:=A%sB END." % operator, None)
    for shift in ("LSL", "LSR", "ASR", "CSL", "CSR"):
        wanted("BEGIN A:=A&%s(15) END." % shift, None)
    for constant in ("0", "32767", "%0", "%177777", "TRUE", "FALSE"):
        wanted("BEGIN A:=%s END." % constant, None)
    say("each form of declaration")
    for part in ("INTEGER I", "LOGICAL A", "INTEGER I,J,K", "LOGICAL A,B,C", "ARRAY X(0:9)", "ARRAY X(0:9),Y(1:2)",
                 "INTEGER ARRAY X(0:9)", "INTEGER ARRAY X(0:9),Y(1:2)", "LOGICAL ARRAY X(0:9)",
                 "LOGICAL ARRAY X(0:9),Y(1:2)", "INTEGER I;LOGICAL A;ARRAY X(0:9);INTEGER ARRAY Y(0:1);LOGICAL B"):
        wanted("BEGIN %s;END." % part, None)
    say("declarations that go wrong, at each of their tokens")
    for part, at in (("INTEGER LOGICAL I", 8), ("INTEGER I,", 10), ("INTEGER I J", 10), ("INTEGER I(0:9)", 9), ("ARRAY X", 7),
                     ("ARRAY X(", 8), ("ARRAY X(I:9)", 8), ("ARRAY X(0", 9), ("ARRAY X(0,9)", 9), ("ARRAY X(0:", 10),
                     ("ARRAY X(0:%7)", 10), ("ARRAY X(0:9", 11), ("ARRAY X(0:9),", 13), ("ARRAY X(-1:9)", 8),
                     ("ARRAY INTEGER X(0:9)", 6), ("LOGICAL ARRAY I,X(0:9)", 15)):
        wanted("BEGIN %s;END." % part, (5, 6 + at))
    say("the values and limits of FOR, with and without STEP; conditions of several clauses")
    for part in ("FOR I:=-1 UNTIL -2 DO", "FOR I:=I STEP -I UNTIL X(I) DO I:=I", "FOR I:=1 UNTIL 2 DO FOR J:=3 STEP 4 UNTIL 5 DO",
                 "IF A AND B AND C OR A OR B AND C THEN", "WHILE A AND B OR C DO", "DO UNTIL A OR B AND C",
                 "IF A LOR B AND LNOT C THEN"):
        wanted("BEGIN %s END." % part, None)


def mixed():
    deep = "(" * 31
    say("a refusal of the grammar before level 33: 5 at its token")
    wanted("BEGIN I:=I J;I:=(%s1)%s END." % (deep, ")" * 31), (5, 11))
    wanted("BEGIN I:=)" + "(" * 40, (5, 9))
    wanted("BEGIN I:=+%s(1)%s END." % (deep, ")" * 31), (5, 9))
    wanted("END" + " BEGIN" * 40, (5, 0))
    wanted("BEGIN " * 32 + "THEN IF A THEN", (5, 192))
    say("level 33 before a refusal of the grammar: 6 at its token")
    wanted("BEGIN I:=%s(1 END." % deep, (6, 40))
    wanted("BEGIN I:=%s()" % deep, (6, 40))
    wanted("BEGIN I:=%s(" % deep, (6, 40))
    wanted("BEGIN " * 33, (6, 192))
    wanted("BEGIN " * 33 + ") THEN", (6, 192))
    wanted("BEGIN " * 32 + "IF", (6, 192))
    say("at the limit, an opener where none may stand: 5 there")
    wanted("BEGIN I:=%s1(2)" % deep, (5, 41))
    wanted("BEGIN " * 32 + "I:=1 BEGIN", (5, 197))
    wanted("BEGIN " * 31 + "FOR(", (5, 189))
    wanted("BEGIN " * 31 + "I:=A LAND LNOT IF", (5, 201))
    say("at the limit, an opener that may stand there, whatever follows it: 6 there")
    wanted("BEGIN " * 32 + "I(1):=2", (6, 193))
    wanted("BEGIN " * 32 + "I:=LNOT IF", (6, 195))
    wanted("BEGIN " * 32 + "FOR(", (6, 192))
    say("a refusal of the text, wherever it stands, before both")
    wanted("BEGIN ) END. ?", (2, 13))
    wanted("BEGIN " * 33 + "32768", (3, 198))
    wanted("END <<", (4, 4))


def fronts():
    text = open(FORMS, encoding="ascii").read()
    assert answer(text.encode("ascii")).startswith("ok")
    say("every front of data/forms.spl, which uses all forms")
    for end in range(len(text) + 1):
        line(text[:end])


def table():
    say("From here on the lines are written by tools/syntax.py; their answers are those of bench/reference.py.")
    forms()
    levels()
    mixed()
    fronts()


if __name__ == "__main__":
    table()
