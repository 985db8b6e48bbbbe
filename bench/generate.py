#!/usr/bin/env python3
"""Requests for the batch protocol, made at random but the same for the same seed.

    generate.py SEED COUNT [KINDS]

prints COUNT lines.  KINDS is a comma list from tokens, parse, imagein, imageout, compile, session, single
(all of them if absent).  The further kind `long`, never chosen by itself, asks for the largest
number of steps a session may take.
"""
import random
import sys

sys.dont_write_bytecode = True
import reference as R

KINDS = ("tokens", "parse", "imagein", "imageout", "compile", "session", "single")

EDGES = (0, 1, 2, 3, 7, 8, 15, 16, 17, 33, 34, 63, 64, 127, 128, 129, 255, 256, 4095, 4096, 4097,
         16382, 16383, 16384, 16385, 32766, 32767, 32768, 32769, 65534, 65535)


def chance(rng, one_in):
    return rng.randrange(one_in) == 0


def word(rng):
    pick = rng.randrange(10)
    if pick < 4:
        return rng.choice(EDGES)
    if pick < 7:
        return rng.randrange(12)
    return rng.randrange(65536)


def store_words(rng, count):
    """Starting words: mostly small, so that subscripts are often within their bounds."""
    style = rng.randrange(4)
    if style == 0:
        return [0] * count
    if style == 1:
        return [rng.randrange(6) for _ in range(count)]
    if style == 2:
        return [rng.choice((0, 1, 2, 3, 65535, 65534, 32767, 32768)) for _ in range(count)]
    return [word(rng) for _ in range(count)]


def hexed(data):
    return data.hex() or "-"


# ---------------------------------------------------------------------------------------------
# Sources as lists of tokens
# ---------------------------------------------------------------------------------------------

SYMBOLS = (":=", "<>", "<=", ">=", ";", ",", ".", "(", ")", ":", "=", "<", ">", "+", "-", "*", "/",
           "&")
WORDS = tuple(sorted(R.RESERVED))
NAMES = ("A", "B", "C", "I", "J", "K", "L", "M", "N", "X", "Y", "Z", "A1", "B'", "CELL'2", "TOTAL",
         "NOT", "TOS", "BEGINS", "ENDS", "DOI", "IF1", "MOD3", "LABEL", "GO", "D0", "Q'''", "OFF",
         "A23456789012345", "ZZZZZZZZZZZZZZZ", "COMMENTS", "INTEGER1", "T", "R", "S", "U", "V", "W")
SHIFTS = R.SHIFTS
RELATIONS = R.RELATIONS
NUMBERS = ("0", "1", "2", "3", "5", "7", "10", "15", "16", "100", "255", "256", "4095", "4096",
           "16383", "16384", "32766", "32767", "00", "007", "0032767", "000000000000000001")
OCTALS = ("%0", "%1", "%2", "%3", "%7", "%10", "%17", "%101", "%377", "%77777", "%100000",
          "%100001", "%177776", "%177777", "%000000", "%0000177777")


class Writer:
    """Writes a source as a list of tokens.  With all chances of a fault at 0 the source is valid."""

    def __init__(self, rng, bad_type=0.0, bad_name=0.0, bad_size=0.0, size=None):
        self.rng = rng
        self.bad_type = bad_type
        self.bad_name = bad_name
        self.bad_size = bad_size
        self.room = size if size is not None else rng.choice((4, 8, 15, 15, 25, 40))
        self.simple = {"INTEGER": [], "LOGICAL": []}
        self.arrays = {"INTEGER": [], "LOGICAL": []}
        self.busy = []

    def odds(self, probability):
        return probability > 0 and self.rng.random() < probability

    # declarations

    def declarations(self):
        rng = self.rng
        pool = list(NAMES)
        rng.shuffle(pool)
        tokens = []
        for _ in range(rng.choice((0, 1, 2, 2, 3, 4))):
            if not pool:
                break
            sort = rng.choice(("INTEGER", "LOGICAL"))
            array = rng.randrange(3) == 0
            head = [] if array and sort == "LOGICAL" and rng.randrange(2) else [sort]
            tokens += head + (["ARRAY"] if array else [])
            for index in range(rng.choice((1, 1, 2, 3))):
                if not pool:
                    break
                if index:
                    tokens.append(",")
                name = pool.pop()
                if self.odds(self.bad_name / 2):
                    taken = self.simple["INTEGER"] + self.simple["LOGICAL"]
                    if taken:
                        name = rng.choice(taken)
                tokens.append(name)
                if array:
                    high = rng.choice((0, 1, 2, 3, 5, 9, 20))
                    low = "0"
                    if self.odds(self.bad_size):
                        low = rng.choice(("1", "2", "32767", "00"))
                    if self.odds(self.bad_size):
                        high = rng.choice((4000, 4094, 4095, 4096, 32767))
                    tokens += ["(", low, ":", str(high), ")"]
                    self.arrays[sort].append((name, high))
                else:
                    self.simple[sort].append(name)
            tokens.append(";")
        return tokens

    # expressions

    def sort_of(self, wanted):
        if self.odds(self.bad_type):
            return "INTEGER" if wanted == "LOGICAL" else "LOGICAL"
        return wanted

    def expr(self, sort, depth):
        rng = self.rng
        sort = self.sort_of(sort)
        self.room -= 1
        if sort == "LOGICAL" and depth > 0 and self.room > 0 and rng.randrange(3) == 0:
            tokens = self.negation(depth - 1)
            for _ in range(rng.choice((1, 1, 2, 3))):
                tokens += [rng.choice(("LAND", "XOR", "LOR"))] + self.negation(depth - 1)
            return tokens
        if sort == "LOGICAL" and depth > 0 and rng.randrange(2):
            return self.negation(depth)
        return self.sum(sort, depth)

    def negation(self, depth):
        rng = self.rng
        if rng.randrange(4) == 0:
            return ["LNOT"] + self.negation(depth - 1 if depth > 0 else 0)
        if rng.randrange(2):
            return self.relation(depth)
        return self.sum(self.sort_of("LOGICAL"), depth)

    def relation(self, depth):
        sort = self.rng.choice(("INTEGER", "LOGICAL"))
        other = self.sort_of(sort)
        return self.sum(sort, depth - 1) + [self.rng.choice(RELATIONS)] + self.sum(other, depth - 1)

    def sum(self, sort, depth):
        rng = self.rng
        tokens = []
        if sort == "INTEGER" and rng.randrange(5) == 0 or self.odds(self.bad_type / 2):
            tokens.append("-")
        tokens += self.term(sort, depth)
        while depth > 0 and self.room > 0 and rng.randrange(3) == 0:
            tokens += [rng.choice("+-")] + self.term(self.sort_of(sort), depth - 1)
        return tokens

    def term(self, sort, depth):
        rng = self.rng
        tokens = self.factor(sort, depth)
        while depth > 0 and self.room > 0 and rng.randrange(4) == 0:
            tokens += [rng.choice(("*", "/", "MOD"))] + self.factor(self.sort_of(sort), depth - 1)
        return tokens

    def field(self):
        rng = self.rng
        if self.odds(self.bad_size):
            pairs = ((0, 0), (0, 16), (16, 1), (15, 2), (1, 15), (1, 16), (9, 8), (32767, 1),
                     (3, 32767), (15, 1), (16, 0))
            start, length = rng.choice(pairs)
        else:
            length = rng.randint(1, 15)
            start = rng.randint(0, 16 - length)
        return [".", "(", str(start), ":", str(length), ")"]

    def factor(self, sort, depth):
        rng = self.rng
        self.room -= 1
        tokens = self.primary(sort, depth)
        while rng.randrange(8) == 0:
            if rng.randrange(2):
                tokens = tokens + self.field()
            else:
                count = rng.choice((0, 1, 2, 4, 8, 14, 15))
                if self.odds(self.bad_size):
                    count = rng.choice((16, 17, 100, 32767))
                tokens = tokens + ["&", rng.choice(SHIFTS), "(", str(count), ")"]
        return tokens

    def primary(self, sort, depth):
        rng = self.rng
        if depth <= 0 or self.room <= 0 or rng.randrange(3):
            if rng.randrange(5) < 3:
                tokens = self.variable(sort, depth - 1)
                if tokens is not None:
                    return tokens
            return [self.constant(sort)]
        if rng.randrange(2):
            return ["("] + self.expr(sort, depth - 1) + [")"]
        inner = rng.choice(("INTEGER", "LOGICAL"))
        return [sort, "("] + self.expr(inner, depth - 1) + [")"]

    def constant(self, sort):
        rng = self.rng
        if sort == "INTEGER":
            return rng.choice(NUMBERS) if rng.randrange(3) else str(rng.choice((0, 1, 2, 3, 5)))
        if rng.randrange(3) == 0:
            return rng.choice(("TRUE", "FALSE"))
        return rng.choice(OCTALS) if rng.randrange(2) else "%%%o" % rng.randrange(65536)

    def stray(self):
        return self.rng.choice(NAMES)

    def variable(self, sort, depth):
        rng = self.rng
        if self.odds(self.bad_name):
            name = self.stray()
            if rng.randrange(2):
                return [name]
            return [name, "("] + self.expr("INTEGER", min(depth, 1)) + [")"]
        simple, arrays = self.simple[sort], self.arrays[sort]
        if arrays and (not simple or rng.randrange(3) == 0):
            name, high = rng.choice(arrays)
            return [name, "("] + self.subscript(high, depth) + [")"]
        return [rng.choice(simple)] if simple else None

    def subscript(self, high, depth):
        rng = self.rng
        pick = rng.randrange(10)
        if pick < 5 or depth < 0:
            return [str(rng.randint(0, min(high, 30)))]
        if pick == 5:
            return [str(high + rng.choice((0, 1)))] if high < 32767 else ["32767"]
        if pick < 9 and self.simple["INTEGER"]:
            return [rng.choice(self.simple["INTEGER"])]
        return self.expr("INTEGER", min(depth, 1))

    # statements

    def cond(self, depth):
        rng = self.rng
        tokens = self.expr("LOGICAL", depth)
        while rng.randrange(4) == 0:
            tokens += [rng.choice(("AND", "OR"))] + self.expr("LOGICAL", depth)
        return tokens

    def list(self, depth, most=4):
        rng = self.rng
        tokens = self.statement(depth)
        for _ in range(rng.randrange(most)):
            tokens += [";"] + self.statement(depth)
        return tokens

    def assignment(self):
        rng = self.rng
        sort = rng.choice(("INTEGER", "LOGICAL"))
        left = self.variable(sort, 1)
        if left is None:
            sort = "INTEGER" if sort == "LOGICAL" else "LOGICAL"
            left = self.variable(sort, 1)
        if left is None:
            return []
        if left[0] in self.busy and rng.randrange(6):
            return []
        if rng.randrange(6) == 0:
            left = left + self.field()
        return left + [":="] + self.expr(sort, rng.choice((0, 1, 2, 3)))

    def statement(self, depth):
        rng = self.rng
        self.room -= 1
        if depth <= 0 or self.room <= 0 or rng.randrange(5) < 3:
            return [] if rng.randrange(12) == 0 else self.assignment()
        form = rng.randrange(6)
        inner = depth - 1
        if form == 0:
            return ["BEGIN"] + self.list(inner) + ["END"]
        if form == 1:
            tokens = ["IF"] + self.cond(2) + ["THEN"]
            body = self.statement(inner)
            tokens += body
            if rng.randrange(2):
                tokens += ["ELSE"] + self.statement(inner)
            return tokens
        if form == 2:
            tokens = ["CASE"] + self.expr("INTEGER", rng.choice((0, 0, 1)))
            return tokens + ["OF", "BEGIN"] + self.list(inner, 6) + ["END"]
        counters = [name for name in self.simple["INTEGER"] if name not in self.busy]
        if form == 3:
            return self.while_loop(inner, counters)
        if form == 4:
            return self.do_loop(inner, counters)
        return self.for_loop(inner, counters)

    def counted(self, inner, counter):
        self.busy.append(counter)
        body = self.list(inner, 3)
        self.busy.pop()
        return body

    def while_loop(self, inner, counters):
        rng = self.rng
        if counters and rng.randrange(5):
            counter = rng.choice(counters)
            test = [counter, "<", rng.choice(("3", "5", "9"))]
            if rng.randrange(4) == 0:
                test += ["AND"] + self.expr("LOGICAL", 1)
            body = self.counted(inner, counter)
            step = [counter, ":=", counter, "+", rng.choice("12")]
            return ["WHILE"] + test + ["DO", "BEGIN"] + body + [";"] + step + ["END"]
        return ["WHILE"] + self.cond(1) + ["DO"] + self.statement(inner)

    def do_loop(self, inner, counters):
        rng = self.rng
        if counters and rng.randrange(5):
            counter = rng.choice(counters)
            body = self.counted(inner, counter)
            step = [counter, ":=", counter, "+", rng.choice("12")]
            test = [counter, rng.choice((">=", ">")), rng.choice(("2", "4"))]
            return ["DO", "BEGIN"] + step + [";"] + body + ["END", "UNTIL"] + test
        return ["DO"] + self.statement(inner) + ["UNTIL"] + self.cond(1)

    def for_loop(self, inner, counters):
        rng = self.rng
        if self.odds(self.bad_name):
            counters = [self.stray()]
        elif self.odds(self.bad_type):
            counters = self.simple["LOGICAL"]
        elif self.odds(self.bad_name):
            counters = [name for name, _ in self.arrays["INTEGER"]]
        if not counters:
            return self.assignment()
        counter = rng.choice(counters)
        style = rng.randrange(8)
        first, step, limit = ["0"], None, [rng.choice(("0", "1", "3", "4"))]
        if style == 1:
            first, step, limit = ["5"], ["-", rng.choice("123")], ["0"]
        elif style == 2:
            first, step, limit = ["1"], [rng.choice("023")], [rng.choice(("4", "9"))]
        elif style == 3:
            first, limit = ["32765"], ["32767"]
        elif style == 4:
            first, step, limit = ["-", "32767"], ["-", "1"], ["-", "32767", "-", "1"]
        elif style == 5:
            first, step, limit = [self.expr("INTEGER", 1) for _ in range(3)]
        first = ["INTEGER", "(", "%100001", ")"] if self.odds(0.02) else first
        if self.odds(self.bad_type):
            first = self.expr("LOGICAL", 1)
        if self.odds(self.bad_type):
            limit = self.expr("LOGICAL", 1)
        self.busy.append(counter)
        body = self.statement(inner)
        self.busy.pop()
        tokens = ["FOR", counter, ":="] + first
        if step is not None:
            tokens += ["STEP"] + step
        return tokens + ["UNTIL"] + limit + ["DO"] + body

    def program(self):
        tokens = ["BEGIN"] + self.declarations()
        return tokens + self.list(3, 6) + ["END", "."]


def must_part(before, after):
    """Would these two tokens, written side by side, be cut in another way?"""
    if before[0].isalpha():
        return after[0].isalnum() or after[0] == "'"
    if before[0].isdigit() or before[0] == "%":
        return after[0].isdigit()
    return before + after[0] in ("<<", "<>", "<=", ">=", ":=")


COMMENTS = ("<<>>", "<< A >>", "<<<>>", "<< << >>", "<<END.>>", "<<\x00\xff\t>>", "<<>\n>>",
            "<< small letters ! >>", "<<%>>")


def gap(rng, style, before, after):
    part = must_part(before, after)
    if style == 0:
        return " "
    if style == 1:
        return " " if part else ""
    pick = rng.randrange(12)
    if pick < 4:
        return " " if part else ""
    if pick < 8:
        return " "
    if pick == 8:
        return "\r\n"
    if pick == 9:
        return "\n  "
    comment = rng.choice(COMMENTS)
    return " " + comment if before[-1] == "<" or pick == 10 else comment


def render(rng, tokens, style=None):
    """The text of a list of tokens, with enough blanks between them."""
    if style is None:
        style = rng.randrange(3)
    parts = []
    before = None
    for token in tokens:
        if before is not None:
            parts.append(gap(rng, style, before, token))
        parts.append(token)
        before = token
    if style == 2:
        parts.insert(0, rng.choice(("", " ", "\n", "<<A>>")))
        parts.append(rng.choice(("", " ", "\n", "<<A>>", " << >> ")))
    return "".join(parts).encode("latin-1")


def valid_source(rng):
    return render(rng, Writer(rng).program())


# Faults on purpose

def random_token(rng):
    pick = rng.randrange(10)
    if pick < 3:
        return rng.choice(SYMBOLS)
    if pick < 6:
        return rng.choice(WORDS)
    if pick < 8:
        return rng.choice(NAMES)
    return rng.choice(NUMBERS) if pick == 8 else rng.choice(OCTALS)


def damage_tokens(rng, tokens):
    tokens = list(tokens)
    for _ in range(rng.choice((1, 1, 1, 2, 3))):
        at = rng.randrange(len(tokens)) if tokens else 0
        pick = rng.randrange(7)
        if pick == 0 and tokens:
            del tokens[at]
        elif pick == 1 and tokens:
            tokens.insert(at, tokens[at])
        elif pick == 2 and at + 1 < len(tokens):
            tokens[at], tokens[at + 1] = tokens[at + 1], tokens[at]
        elif pick == 3 and tokens:
            tokens[at] = random_token(rng)
        elif pick == 4:
            tokens.insert(at, random_token(rng))
        elif pick == 5:
            tokens = tokens[:at]
        else:
            tokens = tokens[:at] + [random_token(rng)]
    return tokens


STRANGE = (b"\t", b"\x0b", b"\x0c", b"\x00", b"\x7f", b"\x80", b"\xff", b"a", b"z", b"'", b'"', b"!",
           b"$", b"#", b"@", b"[", b"]", b"^", b"_", b"?", b"|", b"{", b"~", b"\\", b"`", b"\xc3\xa9")
TEXT_FAULTS = (b"32768", b"99999", b"100000", b"0032768", b"123456789012345678901234567890", b"%",
               b"%8", b"%9", b"%200000", b"%177778", b"%0200000", b"%1777770", b"%A", b"%%1", b"% 1",
               b"%18", b"<<", b"<< ", b"<< >", b"<<< >", b"<<>", b"A234567890123456",
               b"ABCDEFGHIJKLMNOP", b"BEGINBEGINBEGINB", b"A''''''''''''''", b"A'''''''''''''''",
               b"5MOD3", b"1END", b"<<<>>>", b">>", b"<<>>", b"<>=", b"<=>", b":==", b"= =", b">>=",
               b"<", b"<<=>>", b"65535", b"65536", b"4294967296", b"18446744073709551616", b"-32768",
               b"%37777777777", b"%0000000000000000000000000000000000000001",
               b"0000000000000000000000000000000000000001", b"COMMENT", b"COMMENT A;")


def damage_bytes(rng, text):
    text = bytearray(text)
    for _ in range(rng.choice((1, 1, 1, 2, 3))):
        at = rng.randrange(len(text) + 1)
        pick = rng.randrange(8)
        if pick == 0:
            text[at:at] = rng.choice(STRANGE)
        elif pick <= 2:
            text[at:at] = rng.choice(TEXT_FAULTS)
        elif pick == 3:
            del text[at:at + 1]
        elif pick == 4:
            text[at:at + 1] = bytes([rng.randrange(256)])
        elif pick == 5:
            del text[at:]
        elif pick == 6:
            text[at:at + 1] = rng.choice(SYMBOLS).encode()
        else:
            text += rng.choice(TEXT_FAULTS + STRANGE)
    return bytes(text)


def faulty_source(rng):
    """A source good by the grammar, with faults of names, types and sizes, perhaps several."""
    chances = [rng.choice((0.0, 0.0, 0.03, 0.15)) for _ in range(3)]
    if not any(chances):
        chances[rng.randrange(3)] = 0.1
    return Writer(rng, *chances).program()


FAULT_HEAD = "BEGIN INTEGER I,J; LOGICAL L,M; INTEGER ARRAY A(0:3); LOGICAL ARRAY B(0:2);"
FAULT_STATEMENTS = """
I := L|L := I|L := 1|I := %1|I := I + L|L := L + I|L := %1 + 1|I := 1 - %1|I := I * L|I := I / %2|
I := I MOD L|I := -L|L := -L|L := -%1|I := -(L)|A(L) := 1|I := A(%1)|B(I) := I|L := B(L)|
A(A(L)) := 1|CASE L OF BEGIN END|CASE %0 OF BEGIN ; END|FOR L := 1 UNTIL 2 DO|
FOR I := %1 UNTIL 2 DO|FOR I := 1 STEP %1 UNTIL 2 DO|FOR I := 1 UNTIL L DO|
FOR L := %1 STEP %1 UNTIL %2 DO|L := LNOT I|I := LNOT I|L := LNOT 1|L := I LAND L|L := L LAND I|
I := I LAND J|L := L XOR 1|L := 1 LOR L|L := I XOR J|IF I THEN|IF 1 THEN I := 1 ELSE J := 1|
IF L AND I THEN|IF L OR I THEN|IF I OR L AND J THEN|IF (I) THEN|IF -I THEN|IF I + J THEN|
WHILE I DO|WHILE L OR 1 DO|DO UNTIL I|DO I := 1 UNTIL L AND 0|L := I < L|L := L = 1|L := %1 >= I|
L := I < J LAND L = I|I := I < J|I.(0:1) := L|L.(0:1) := I|A(1).(2:3) := %1|B(1).(2:3) := 1|
I := INTEGER(L) + L|L := LOGICAL(I) + I|I := INTEGER(L + I)|I := LOGICAL(I)|L := INTEGER(L)|
I := L.(0:1)|I := L&LSL(1)|L := 1 + %1|L := %1 + 1 = 2|
X := 1|I := X|I := X(1)|X(1) := 1|X(X) := X|A := 1|I := A|I(1) := 1|I := J(1)|I := J(X)|A(X) := 1|
FOR A := 1 UNTIL 2 DO|FOR X := 1 UNTIL 2 DO|FOR B := 1 UNTIL X DO|L := B|L := M(1)|A(A) := A|
I := A(B)|B := TRUE|I.(0:1) := X|A.(0:1) := 1|I(1).(0:1) := 1|
I := I.(0:0)|I := I.(0:16)|I := I.(16:1)|I := I.(15:2)|I := I.(1:15)|I := I.(1:16)|I := I.(15:1)|
I := I.(32767:1)|I := I.(1:32767)|I.(0:0) := 1|I.(9:8) := 1|I.(16:0) := 1|I := I&LSL(16)|
I := I&CSR(32767)|I := I&ASR(15)|I := I&LSR(0)|I := I&LSL(16).(0:0)|I := I.(0:0)&LSL(16)|
A(1).(0:16) := 1|I := A(1).(0:16)|L := %1&LSL(16) LAND L.(8:9)
""".replace("\n", "").split("|")
GRAMMAR_STATEMENTS = """
I : = 1|I := |I := 1 2|I := +1|I := - -1|I := 1 * -1|I := 1 + -1|I := J--1|I := (1|I := 1)|
I := 1 < 2 < 3|I := L LAND LNOT|I := 1 + LNOT L|I := -LNOT L|L := I = LNOT L|L := LNOT - I = J|
L := I = - J|I := (L AND M)|I := (L OR M)|I := L AND M|IF L THEN ; ELSE|ELSE|THEN|IF L|IF THEN|
IF L DO|WHILE L THEN|WHILE DO|DO|DO I := 1|DO UNTIL|DO UNTIL L ELSE|UNTIL L|FOR I := 1 DO|
FOR I := 1 STEP 1 DO|FOR I := 1 UNTIL 2 STEP 1 DO|FOR A(1) := 1 UNTIL 2 DO|FOR 1 := 1 UNTIL 2 DO|
FOR I.(0:1) := 1 UNTIL 2 DO|CASE I OF|CASE I BEGIN END|CASE I OF BEGIN|CASE OF BEGIN END|
CASE I OF BEGIN INTEGER K; END|BEGIN INTEGER K; END|INTEGER K|LOGICAL|ARRAY K(0:1)|I|A(1)|I.(0:1)|
I.(0:1).(1:1) := 1|I&LSL(1) := 1|I := I.(%1:1)|I := I.(0:%1)|I := I.(1)|I := I.(1,2)|I := I.1|
I := I&LSL|I := I&LSL(%1)|I := I&LSL(I)|I := I&LSL(-1)|I := I&XYZ(1)|I := I&(1)|I := I&MOD(1)|
A() := 1|A(1,2) := 1|A(1:2) := 1|A(1)(2) := 1|INTEGER(1) := 1|TRUE := 1|(I) := 1|5 := 1|1|%1|
I := INTEGER 1|I := INTEGER|I := INTEGER()|I := TRUE(1)|I := (1)(1)|I := 1(1)|I := ()|COMMENT X|
I := COMMENT|END|END.|END;|.|BEGIN|BEGIN END END|I := 1 END|I := I.|I := I.;|X. END|X.|
I := 1 MOD|MOD|I := I MOD MOD J|I := I LAND LAND L|L := L LOR|STEP|OF|OR|AND|LNOT L|LSL|I := LSL|
I := I DIV J|A(1) = 2|I <> 1|, I|I, J := 1|I := 1, 2|: I|(|)|&|I &|I := J := 1|IF L THEN I := 1 THEN
""".replace("\n", "").split("|")
DECLARATIONS = """
INTEGER|INTEGER I|INTEGER ;|INTEGER I,|INTEGER I,;|INTEGER ,I;|INTEGER I J;|INTEGER 1;|INTEGER MOD;|
INTEGER I(0:1);|INTEGER ARRAY;|INTEGER ARRAY K;|INTEGER ARRAY K(0);|INTEGER ARRAY K(0:1;|
INTEGER ARRAY K(0:1),;|INTEGER ARRAY K(0,1);|INTEGER ARRAY K(%0:1);|INTEGER ARRAY K(0:%1);|
INTEGER ARRAY K(-1:1);|INTEGER ARRAY K(0:1)K;|ARRAY INTEGER K(0:1);|LOGICAL INTEGER K;|
ARRAY K(0:1),N(0:2);|ARRAY K(1:2);|ARRAY K(0:0);|ARRAY K(0:1) END|ARRAY K(0:4096);|ARRAY K(0:4095);|
ARRAY K(1:5000);|ARRAY K(1:1),N(0:4096);|ARRAY K(0:4000),N(0:4000),O(0:4000);|INTEGER I,I;|
INTEGER I; LOGICAL I;|INTEGER I; ARRAY I(1:2);|; INTEGER I;|INTEGER I;; INTEGER J;|REAL X;|
INTEGER A:=1;|INTEGER A=1;|ARRAY K(0:);|ARRAY K(:1);|ARRAY K();|ARRAY (0:1);|ARRAY ARRAY(0:1);|
LOGICAL ARRAY K(0:4094),N(0:0),O(0:0);|INTEGER K;ARRAY N(0:4094);INTEGER O;|COMMENT A;|
ARRAY K(3:2);|ARRAY K(0:32767),N(1:32767);|INTEGER COMMENT;|INTEGER A.;|INTEGER ARRAY K(0:1):;
""".replace("\n", "").split("|")


def planted_source(rng):
    """A small source with chosen faults in it, one or several."""
    head = FAULT_HEAD
    if rng.randrange(4) == 0:
        head = "BEGIN " + rng.choice(DECLARATIONS)
        while rng.randrange(3) == 0:
            head += " " + rng.choice(DECLARATIONS)
        if rng.randrange(2):
            head += " INTEGER I, J; LOGICAL L;"
    statements = []
    broken = rng.randrange(2) == 0
    for _ in range(rng.choice((1, 1, 2, 3))):
        pick = rng.randrange(8)
        if pick < 4:
            statements.append(rng.choice(FAULT_STATEMENTS))
        elif pick < 7 and broken:
            statements.append(rng.choice(GRAMMAR_STATEMENTS))
        else:
            statements.append("I := J")
    text = head + " " + "; ".join(statements)
    if not broken:
        return (text + rng.choice((" END.", "; END.", "\nEND.\n"))).encode("latin-1")
    text += rng.choice((" END.", " END.", " END.", " END.", "; END.", " END", "", ".", " END. ",
                        " END.X", " END..", " END;", " END. END.", "END.<<", " END.<<>>"))
    return text.encode("latin-1")


# Nesting

class Nest:
    """Openers one inside the other, a chosen number of levels deep."""

    def __init__(self, rng, only=None):
        self.rng = rng
        self.only = only

    def pick(self, options):
        if self.only is not None and self.only in options:
            return self.only
        return self.rng.choice(options)

    def statement(self, levels):
        rng = self.rng
        if levels == 0:
            return rng.choice(([], ["I", ":=", "1"], ["L", ":=", "L"]))
        if self.only in ("paren", "convert", "subscript", "lnot", "left") or (
                self.only is None and rng.randrange(12) == 0):
            if self.only == "left" or rng.randrange(6) == 0 and self.only in (None, "subscript"):
                return ["A", "("] + self.expr("INTEGER", levels - 1) + [")", ":=", "1"]
            return ["L", ":="] + self.expr("LOGICAL", levels)
        form = self.pick(("BEGIN", "IF", "ELSE", "CASE", "WHILE", "DO", "FOR"))
        left = levels - 1
        if form == "BEGIN":
            return ["BEGIN"] + self.statement(left) + ["END"]
        if form == "ELSE":
            return ["IF", "L", "THEN", "ELSE"] + self.statement(left)
        inner = self.only is None and rng.randrange(8) == 0
        if form == "IF":
            if inner:
                return ["IF"] + self.expr("LOGICAL", left) + ["THEN"]
            return ["IF", "L", "THEN"] + self.statement(left)
        if form == "CASE":
            if inner:
                return ["CASE"] + self.expr("INTEGER", left) + ["OF", "BEGIN", "END"]
            return ["CASE", "I", "OF", "BEGIN"] + self.statement(left) + ["END"]
        if form == "WHILE":
            if inner:
                return ["WHILE"] + self.expr("LOGICAL", left) + ["DO"]
            return ["WHILE", "L", "DO"] + self.statement(left)
        if form == "DO":
            if inner:
                return ["DO", "UNTIL"] + self.expr("LOGICAL", left)
            return ["DO"] + self.statement(left) + ["UNTIL", "L"]
        if inner:
            where = rng.randrange(3)
            parts = [["1"], ["1"], ["1"]]
            parts[where] = self.expr("INTEGER", left)
            return (["FOR", "I", ":="] + parts[0] + ["STEP"] + parts[1] + ["UNTIL"] + parts[2]
                    + ["DO"])
        return ["FOR", "I", ":=", "1", "UNTIL", "2", "DO"] + self.statement(left)

    def expr(self, sort, levels):
        rng = self.rng
        if levels == 0:
            return [{"INTEGER": "I", "LOGICAL": "L"}[sort]]
        left = levels - 1
        options = ("paren", "convert", "subscript")
        if sort == "LOGICAL":
            options += ("lnot",)
        form = self.pick(options)
        if form == "lnot":
            return ["LNOT"] + self.expr("LOGICAL", left)
        if form == "convert":
            return [sort, "("] + self.expr(rng.choice(("INTEGER", "LOGICAL")), left) + [")"]
        if form == "subscript":
            name = {"INTEGER": "A", "LOGICAL": "B"}[sort]
            return [name, "("] + self.expr("INTEGER", left) + [")"]
        inner = self.expr(sort, left)
        if sort == "INTEGER" and rng.randrange(4) == 0:
            inner = ["-"] + inner
        if sort == "LOGICAL" and rng.randrange(4) == 0:
            inner = ["L", "LAND"] + inner
        return ["("] + inner + [")"]


OPENERS = (None, None, None, "BEGIN", "IF", "ELSE", "CASE", "WHILE", "DO", "FOR", "paren", "convert",
           "subscript", "lnot", "left")
HEAD = """
BEGIN INTEGER I ; LOGICAL L ; INTEGER ARRAY A ( 0 : 3 ) ; LOGICAL ARRAY B ( 0 : 2 ) ;
""".split()


def nested_source(rng):
    """The deepest level is 31 to 34; sometimes several deep places, or damage besides."""
    tokens = list(HEAD)
    for index in range(rng.choice((1, 1, 2, 3))):
        if index:
            tokens.append(";")
        levels = rng.choice((30, 31, 31, 31, 32, 33))
        tokens += Nest(rng, rng.choice(OPENERS)).statement(levels)
    tokens += ["END", "."]
    if rng.randrange(4) == 0:
        tokens = damage_tokens(rng, tokens)
    return render(rng, tokens, rng.choice((0, 0, 1)))


# Limits

def fresh_name(rng, index):
    base = "N%d" % index
    if rng.randrange(8) == 0:
        base += "'" * (15 - len(base))
    return base


def many_names(rng):
    """63 to 66 names, perhaps one twice, perhaps arrays among them."""
    count = rng.choice((63, 64, 65, 66))
    names = [fresh_name(rng, index) for index in range(count)]
    if rng.randrange(3) == 0:
        names[rng.randrange(count)] = rng.choice(names)
    if rng.randrange(3) == 0:
        names[rng.choice((63, 64, 64, 65)) % count] = rng.choice(names)
    text = "BEGIN INTEGER " + ",".join(names[:40]) + ";LOGICAL " + names[40] + ";"
    if rng.randrange(2):
        text += "INTEGER " + ",".join(names[41:]) + ";"
    else:
        text += "ARRAY " + ",".join("%s(0:%d)" % (name, rng.choice((0, 1, 100)))
                                    for name in names[41:]) + ";"
    statements = []
    for _ in range(rng.randrange(3)):
        name = rng.choice(names + ["N99"])
        statements.append("%s:=%s" % (name, rng.choice(names)))
    return (text + ";".join(statements) + " END.").encode()


def many_cells(rng):
    """About 4,096 cells."""
    total = rng.choice((4095, 4096, 4096, 4097, 4098))
    parts = []
    index = 0
    while total > 0:
        index += 1
        if index > 6 or rng.randrange(3) == 0:
            take = total
        else:
            take = rng.choice((1, 1, 2, 100, 1000, total))
        take = min(take, total)
        total -= take
        if take == 1 and rng.randrange(2):
            parts.append("INTEGER C%d;" % index)
        else:
            low = "1" if rng.randrange(25) == 0 else "0"
            parts.append("%sARRAY C%d(%s:%d);" % (rng.choice(("", "INTEGER ", "LOGICAL ")), index,
                                                  low, take - 1))
    if rng.randrange(3) == 0:
        parts.append("LOGICAL L;")
    rng.shuffle(parts)
    body = rng.choice(("", "X:=1", "L:=%1.(0:16)", ";", "C1:=0", "C2(0):=%0", "C1(0):=C1(4095)"))
    return ("BEGIN " + "".join(parts) + body + " END.").encode()


def long_source(rng):
    """About the bounds of bytes and instructions."""
    pick = rng.randrange(6)
    if pick <= 1:
        core = b"BEGIN INTEGER I;I:=1"
        tail = b" END."
        if rng.randrange(4) == 0:
            tail = b" END"
        length = rng.choice((32767, 32768, 32768, 32769))
        fill = length - len(core) - len(tail)
        middle = rng.choice((b" " * fill, b"<<" + b"x" * (fill - 4) + b">>", b";" * fill,
                             b"\r\n" * (fill // 2) + b" " * (fill % 2),
                             b"+1" * (fill // 2) + b" " * (fill % 2)))
        if rng.randrange(6) == 0:
            middle = b"!" + middle[1:]
        return core + middle + tail
    if pick == 2:
        return b"BEGIN INTEGER I;CASE I OF BEGIN" + b";" * rng.randint(8180, 8200) + b"END END."
    if pick == 3:
        count = rng.choice((8188, 8189, 8190))
        extra = rng.choice((b"", b";I:=I", b";I:=I&LSL(0)", b";I:=I;I:=I"))
        return (b"BEGIN INTEGER I;CASE I OF BEGIN" + b";" * (count - 1) + b"END" + extra + b" END.")
    if pick == 4:
        return b"BEGIN INTEGER I;I:=I" + b"*I" * rng.choice((8189, 8190, 8191)) + b" END."
    chain = b"BEGIN LOGICAL L;IF L" + b" OR L" * rng.choice((10, 1000, 3000)) + b" THEN END."
    return chain


def source(rng):
    pick = rng.randrange(1000)
    if pick < 4:
        return long_source(rng)
    if pick < 220:
        return valid_source(rng)
    if pick < 360:
        return render(rng, faulty_source(rng))
    if pick < 580:
        return planted_source(rng)
    if pick < 690:
        return render(rng, damage_tokens(rng, Writer(rng).program()))
    if pick < 750:
        return render(rng, damage_tokens(rng, faulty_source(rng)))
    if pick < 830:
        return damage_bytes(rng, valid_source(rng))
    if pick < 940:
        return nested_source(rng)
    if pick < 960:
        return many_names(rng)
    if pick < 980:
        return many_cells(rng)
    if pick < 992:
        return damage_bytes(rng, planted_source(rng))
    return render(rng, [random_token(rng) for _ in range(rng.randrange(8))])


def text_alone(rng):
    """Text that need not be near a program."""
    parts = []
    for _ in range(rng.randrange(1, 14)):
        pick = rng.randrange(8)
        if pick < 3:
            parts.append(random_token(rng).encode())
        elif pick == 3:
            parts.append(rng.choice(TEXT_FAULTS) if rng.randrange(3) == 0 else b"")
        elif pick == 4:
            parts.append(rng.choice(STRANGE) if rng.randrange(4) == 0 else b" ")
        elif pick == 5:
            parts.append(rng.choice(COMMENTS).encode("latin-1"))
        elif pick == 6:
            parts.append(b" ")
        else:
            parts.append(bytes(rng.choice(b"<>=:;. %'0189AZ-") for _ in range(rng.randrange(6))))
    return b"".join(parts)


# ---------------------------------------------------------------------------------------------
# Code
# ---------------------------------------------------------------------------------------------

def written_entry(rng):
    """An entry that an image may hold; operands are any words."""
    number = rng.randrange(34)
    named = R.NAMED[number]
    return (number, word(rng) if named > 0 else 0, word(rng) if named > 1 else 0)


def written_code(rng):
    if rng.randrange(3) == 0:
        try:
            return compiled(rng)
        except R.Refusal:
            pass
    count = rng.choice((1, 1, 2, 3, 4, 5, 8, 12, 20))
    if chance(rng, 150):
        count = rng.choice((127, 128, 129, 200))
    return word(rng) % 4097, word(rng), [written_entry(rng) for _ in range(count)]


def compiled(rng):
    return R.compile_source(render(rng, Writer(rng).program(), 0), R.MAX_CODE)


def show_code(code):
    return R.show_code([tuple(entry) for entry in code])


def image_numbers(cells, depth, code):
    """The numbers of an image in order."""
    numbers = [cells, depth, len(code)]
    for entry in code:
        numbers += entry[:1 + R.NAMED[entry[0]]]
    return numbers


def imagein_line(rng):
    cells, depth, code = written_code(rng)
    numbers = image_numbers(cells, depth, code)
    groups = [R.number_out(value) for value in numbers]
    table = len(code) + rng.choice((0, 0, 0, 0, 0, 1, 3, 100))
    pick = rng.randrange(16)
    if pick == 0:
        table = rng.choice((0, 1, len(code) - 1, max(len(code) - 2, 0)))
    elif pick == 1:
        image = b"".join(groups)
        return "imagein %d %s" % (table, hexed(image[:rng.randrange(len(image) + 1)]))
    elif pick == 2:
        at = rng.randrange(len(groups))
        groups[at] = b"\x80" * rng.choice((1, 1, 2)) + groups[at]
    elif pick == 3:
        at = rng.randrange(len(groups))
        groups[at] = R.number_out(rng.choice((65536, 65537, 70000, 131071, 1 << 21, (1 << 21) - 1,
                                              1 << 28, 1 << 32, 1 << 64, 65535, 65534)))
    elif pick == 4:
        at = rng.randrange(len(groups))
        groups[at] = R.number_out(rng.choice((34, 35, 63, 127, 128, 16383, 16384, 65535)))
    elif pick == 5:
        groups.append(bytes(rng.randrange(256) for _ in range(rng.choice((1, 1, 2, 5)))))
    elif pick == 6:
        groups[2] = R.number_out(rng.choice((0, 1, len(code) + 1, len(code) + 2, len(code) - 1,
                                             16383, 16384, 16385, 65535, 65536)))
        if rng.randrange(2):
            table = rng.choice((0, 16382, 16383, 16384, 20000))
    elif pick == 7:
        groups[0] = R.number_out(rng.choice((0, 4095, 4096, 4097, 16384, 65535, 65536)))
    elif pick == 8:
        groups = groups[:rng.randrange(4)]
        groups.append(rng.choice((b"\x80", b"\x81", b"\x83\xff\xff", b"\x83\xff", b"\x84\x80",
                                  b"\x84\x80\x80", b"\x84\x80\x00", b"\x83\xff\x7f", b"\xff",
                                  b"\xff\xff", b"\xff\xff\xff", b"\x81\x80\x80", b"\x83\xff\xff\x00",
                                  b"\x00", b"\x22", b"\xa0\x01", b"\x81\x80\x00", b"\x82\x80\x80\x00")))
        if rng.randrange(3) == 0:
            groups.append(bytes(rng.randrange(256) for _ in range(rng.randrange(4))))
    elif pick == 9:
        at = rng.randrange(len(groups))
        group = bytearray(groups[at])
        group[rng.randrange(len(group))] ^= 128
        groups[at] = bytes(group)
    elif pick == 10:
        return "imagein %d %s" % (rng.randrange(20), hexed(bytes(
            rng.choice((rng.randrange(256), rng.randrange(40), 1, 128)) for _ in range(
                rng.randrange(12)))))
    image = bytearray(b"".join(groups))
    if pick in (11, 12):
        for _ in range(rng.choice((1, 1, 2))):
            image[rng.randrange(len(image))] = rng.choice((rng.randrange(256), 0, 1, 127, 128, 129,
                                                           131, 132, 255, 34, 33))
    elif pick == 13:
        at = rng.randrange(len(image))
        if rng.randrange(2):
            del image[at]
        else:
            image.insert(at, rng.randrange(256))
    return "imagein %d %s" % (table, hexed(bytes(image)))


def imageout_line(rng):
    cells, depth, code = written_code(rng)
    code = [list(entry) for entry in code]
    pick = rng.randrange(12)
    if pick == 0:
        for _ in range(rng.choice((1, 1, 2))):
            rng.choice(code)[0] = rng.choice((34, 35, 64, 127, 128, 255, 256, 289, 16384, 32768,
                                              65535, rng.randrange(34, 65536)))
    elif pick == 1:
        for _ in range(rng.choice((1, 1, 2))):
            entry = rng.choice(code)
            if R.NAMED[entry[0]] < 2:
                entry[2] = rng.choice((0, 1, 256, 32768, 65535))
    elif pick == 2:
        for _ in range(rng.choice((1, 1, 2))):
            entry = rng.choice(code)
            if R.NAMED[entry[0]] < 1:
                entry[1] = rng.choice((0, 1, 256, 32768, 65535))
    elif pick == 3:
        cells = rng.choice((4095, 4096, 4097, 16384, 65535))
    elif pick == 4 and rng.randrange(3) == 0:
        code = []
    elif pick == 5:
        code = [[rng.randrange(40), word(rng) if rng.randrange(3) else 0,
                 word(rng) if rng.randrange(3) else 0] for _ in range(rng.randrange(1, 6))]
    try:
        need = len(R.image_out(1 << 30, cells, depth, code))
    except R.Refusal:
        need = rng.randrange(20)
    room = rng.choice((need, need, need, need + 1, need + 50, max(need - 1, 0), max(need - 2, 0),
                       need // 2, 0, rng.randrange(need + 2)))
    return "imageout %d %d %d %s" % (room, cells, depth, show_code(code))


def huge_code_line(rng, kind):
    """Counts of instructions about 16,383; the lines are long, so they are rare."""
    count = rng.choice((16383, 16384))
    code = ";".join(["0,0,0"] * count)
    if kind == "imageout":
        return "imageout %d 0 0 %s" % (rng.choice((20000, count + 4, count + 5)), code)
    if kind == "imagein":
        image = b"\x00\x00" + R.number_out(count) + b"\x00" * rng.choice((count, count - 1))
        return "imagein %d %s" % (rng.choice((16383, 16382, 20000)), image.hex())
    if kind == "session":
        return "session 0 0 0 - r1;r1;p %s" % code
    return "single 5 0 0 7 - %s" % code


# ---------------------------------------------------------------------------------------------
# Sessions
# ---------------------------------------------------------------------------------------------

def show_words(words):
    return ",".join(map(str, words)) or "-"


def show_store(rng, words):
    """One of the three stores with these words."""
    def as_bytes(part):
        data = b"".join(bytes((w >> 8, w & 255)) for w in part)
        if rng.randrange(5) == 0:
            data += bytes([rng.randrange(256)])
        return "b" + hexed(data)
    pick = rng.randrange(4)
    if pick < 2:
        return show_words(words)
    if pick == 2:
        return as_bytes(words)
    at = rng.randint(0, len(words))
    return show_words(words[:at]) + "+" + as_bytes(words[at:])


PAIR_CODES = (R.ADD, R.SUB, R.MUL, R.DIV, R.REM, R.LADD, R.LSUB, R.LMUL, R.LDIV, R.LREM, R.AND, R.OR,
              R.XOR)


SIGNED_EDGES = (0, 1, 2, 32766, 32767, 32768, 32769, 65533, 65534, 65535)


def probe(rng):
    """Operations on chosen words, each result stored where it can be looked at."""
    code = []
    cell = 0
    for _ in range(rng.choice((1, 1, 2, 3))):
        pick = rng.randrange(8)
        if pick < 4:
            operation = (rng.choice(PAIR_CODES), 0, 0)
        elif pick == 4:
            operation = (rng.choice((R.CMP, R.LCMP)), rng.randrange(6), 0)
        elif pick == 5:
            length = rng.randint(1, 15)
            operation = (R.DEP, rng.randint(0, 16 - length), length)
        elif pick == 6:
            operation = (R.SHF, rng.randrange(5), rng.randrange(16))
        else:
            length = rng.randint(1, 15)
            operation = rng.choice(((R.NEG, 0, 0), (R.NOT, 0, 0),
                                    (R.FLD, rng.randint(0, 16 - length), length)))
        edges = rng.randrange(3) == 0
        values = [rng.choice(SIGNED_EDGES) if edges else word(rng)
                  for _ in range(R.NEEDED[operation[0]])]
        if operation[0] in (R.MUL, R.DIV, R.REM, R.LDIV, R.LREM) and rng.randrange(4) == 0:
            values = rng.choice(((32768, 65535), (65535, 32768), (32768, 32768), (32768, 1),
                                 (65529, 2), (7, 65534), (65529, 65534), (181, 181), (182, 181)))
        for value in values:
            code.append((R.LIT, value, 0))
        code.append(operation)
        code.append((R.STOR, cell, 0))
        cell += 1
    code.append((R.HALT, 0, 0))
    return cell, 2, code


def loose_operands(rng, number_, size, length):
    """Operands that often make sense, and sometimes do not."""
    cell = rng.choice((0, 0, 1, 2, max(size - 1, 0), size, 65535)) if rng.randrange(4) else word(rng)
    place = rng.randrange(length + 2) if rng.randrange(12) else word(rng)
    small = rng.choice((0, 1, 2, 3, 5))
    if number_ in (R.LOAD, R.STOR):
        return cell, 0
    if number_ == R.LIT:
        return (rng.randrange(5) if rng.randrange(2) else word(rng)), 0
    if number_ in (R.LDX, R.STX):
        return cell, rng.choice((small, small, size, word(rng)))
    if number_ == R.CHK:
        return rng.choice((small, 5, 65535)), 0
    if number_ == R.DROP:
        return rng.choice((0, 1, 1, 2, 3, word(rng))), 0
    if number_ in (R.CMP, R.LCMP):
        return rng.choice((0, 1, 2, 3, 4, 5, 5, 6)), 0
    if number_ in (R.FLD, R.DEP):
        return rng.choice((0, 1, 8, 15, 16, 3)), rng.choice((0, 1, 2, 8, 15, 16))
    if number_ == R.SHF:
        return rng.choice((0, 1, 2, 3, 4, 4, 5)), rng.choice((0, 1, 8, 15, 15, 16))
    if number_ in (R.BR, R.BRE):
        return place, 0
    if number_ == R.CASE:
        return place, rng.choice((small, small, 65535))
    if number_ in (R.FOR, R.NEXT):
        return cell, place
    return 0, 0


def loose_code(rng, size):
    """Code that is rarely well formed; it begins with some words pushed, so that it gets on."""
    length = rng.choice((1, 2, 3, 5, 8, 12, 16))
    code = [(R.LIT, rng.choice((0, 1, 2, word(rng))), 0) for _ in range(rng.randrange(4))]
    total = len(code) + length
    while len(code) < total:
        number_ = rng.randrange(34)
        if number_ == R.HALT and rng.randrange(2):
            number_ = R.LIT
        a, b = loose_operands(rng, number_, size, total)
        if chance(rng, 40):
            number_ = rng.choice((34, 35, 63, 255, 256, 65535))
        if chance(rng, 50):
            a, b = word(rng), word(rng)
        code.append((number_, a, b))
    return code


def pushed_then(rng, size):
    """Just enough words, or one too few, then one instruction, then what shows its result."""
    number_ = rng.randrange(34)
    a, b = loose_operands(rng, number_, size, 8)
    need = a if number_ == R.DROP else R.NEEDED[number_]
    count = max(0, min(need, 6) + rng.choice((0, 0, 0, 0, -1, 1)))
    code = [(R.LIT, rng.choice((0, 1, 2, 5, 65535, 65534, word(rng))), 0) for _ in range(count)]
    code.append((number_, a, b))
    for cell in range(rng.randrange(3)):
        code.append((R.STOR, cell, 0))
    code.append((R.HALT, 0, 0))
    return code


def edge_index(rng):
    """Sums of a cell or a target and an index about 65,535."""
    if rng.randrange(2):
        code = [(R.LIT, rng.choice((0, 1, 32767, 65535, 32768)), 0),
                (R.CASE, rng.choice((0, 1, 2, 65535, 32768)), rng.choice((1, 2, 32768, 65535))),
                (R.HALT, 0, 0)]
    else:
        code = [(R.LIT, rng.choice((0, 1, 2, 32767, 65535)), 0)]
        if rng.randrange(2):
            code.append((R.LDX, rng.choice((0, 1, 65534, 65535)), rng.choice((0, 2, 3, 65535))))
        else:
            code.append((R.LIT, 9, 0))
            code.append((R.STX, rng.choice((0, 1, 65534, 65535)), rng.choice((0, 2, 3, 65535))))
        code.append((R.HALT, 0, 0))
    return code


def calls(rng, size, steps):
    """Resumes, reports and looks; the sum of the limits stays modest."""
    out = []
    left = steps
    for _ in range(rng.choice((0, 1, 2, 3, 4, 6, 8))):
        pick = rng.randrange(10)
        if pick < 6:
            limit = rng.choice((1, 1, 2, 3, 5, 10, 50, left, left, 0))
            limit = min(limit, left)
            left -= limit
            out.append("r%d" % limit)
        elif pick < 8:
            look = rng.choice((0, 1, size - 1, size, size + 1, 65534, 65535, rng.randrange(size + 2)))
            out.append("l%d" % min(max(look, 0), 65535))
        else:
            out.append("p")
    if rng.randrange(2):
        out.append("r%d" % max(left, 1))
        out.append(rng.choice(("p", "r1", "r0", "r5", "l0")))
    return ";".join(out) or "-"


def job(rng):
    """Cells, depth, code and starting words of a run."""
    pick = rng.randrange(20)
    if pick < 7:
        cells, depth, code = compiled(rng)
        if pick == 0:
            code = [list(entry) for entry in code]
            for _ in range(rng.choice((1, 2))):
                entry = rng.choice(code)
                if rng.randrange(3) == 0:
                    entry[0] = rng.randrange(35)
                entry[rng.randrange(1, 3)] = word(rng)
            code = [tuple(entry) for entry in code]
        words = store_words(rng, cells + rng.choice((0, 0, 0, 1, 3)))
    elif pick < 11:
        cells, depth, code = probe(rng)
        words = store_words(rng, cells)
    else:
        cells = rng.choice((0, 1, 2, 3, 5))
        words = store_words(rng, cells + rng.choice((0, 0, 1)))
        if pick < 14:
            code = loose_code(rng, len(words))
        elif pick < 19:
            code = pushed_then(rng, len(words))
        else:
            code = edge_index(rng)
        depth = rng.choice((0, 1, 2, 3, 4, 6, 8))
    if chance(rng, 10):
        depth = max(0, depth + rng.choice((-1, -1, 1)))
    if chance(rng, 25):
        words = words[:-1]
    if chance(rng, 60):
        code = []
    if chance(rng, 30):
        cells = max(0, cells + rng.choice((-1, 1, 100)))
    return cells, depth, code, words


def stack_length(rng, depth):
    return max(0, depth + rng.choice((0, 0, 0, 0, 0, 0, 0, 1, 5, -1)))


def big_store(rng):
    """Stores about 65,535 words."""
    pick = rng.randrange(4)
    if pick == 0:
        return "b" + "0001" * rng.choice((65534, 65535, 65536))
    if pick == 1:
        return ",".join(["7"] * rng.choice((65534, 65535, 65536)))
    count = rng.choice((1, 100, 65534, 65535, 65536))
    rest = rng.choice((65534, 65535, 65536)) - count + rng.choice((0, 1, 1))
    return ",".join(["7"] * count) + "+b" + ("0001" * max(rest, 0) or "-")


def big_store_line(rng, kind):
    code = [(R.LIT, 5, 0), (R.STOR, rng.choice((65533, 65534, 65535, 99, 100)), 0),
            (R.LOAD, rng.choice((65533, 65534, 65535, 0)), 0), (R.STOR, 1, 0), (R.LIT, 32767, 0),
            (R.LDX, rng.choice((32766, 32767, 32768)), 65535), (R.HALT, 0, 0)]
    cells = rng.choice((0, 65534, 65535))
    if kind == "session":
        return "session %d 2 2 %s r20;l65533;l65534;l65535;l0;l1;l99;l100 %s" % (
            cells, big_store(rng), show_code(code))
    return "single 20 %d 2 1,1 %s %s" % (cells, big_store(rng), show_code(code))


def session_line(rng):
    cells, depth, code, words = job(rng)
    steps = rng.choice((50, 200, 1000)) if not chance(rng, 50) else 20000
    return "session %d %d %d %s %s %s" % (
        cells, depth, stack_length(rng, depth), show_store(rng, words),
        calls(rng, len(words), steps), show_code(code))


def single_line(rng):
    cells, depth, code, words = job(rng)
    limit = rng.choice((0, 1, 2, 3, 5, 20, 100, 500, 500, 1000, 1000))
    if chance(rng, 60):
        limit = 20000
    stack = [word(rng) for _ in range(stack_length(rng, depth))]
    return "single %d %d %d %s %s %s" % (
        limit, cells, depth, show_words(stack), show_store(rng, words), show_code(code))


def long_line(rng):
    """The largest number of steps in all, by a branch to itself."""
    before = [(R.LIT, 1, 0)] * rng.randrange(3)
    code = before + [(R.BR, len(before), 0)]
    asked = rng.choice(("r4000000000;r1;r0;p", "r3999999999;r2;r1;p", "r1;r4000000000;p;r1;l0"))
    return "session 0 2 2 7 %s %s" % (asked, show_code(code))


# ---------------------------------------------------------------------------------------------
# Lines
# ---------------------------------------------------------------------------------------------

NO_REQUESTS = ("hello", "tokens", "tokens 4", "tokens 4g", "tokens xyz", "compile", "compile 5",
               "compile x 4142", "compile 10 414", "imagein 8", "imagein 8 010", "imagein x 00",
               "imageout 1 1 1", "imageout 10 1 1 1,2", "imageout 10 1 1 1,2,3,4",
               "imageout 10 65536 1 0,0,0", "imageout 10 1 1 65536,0,0", "imageout 10 1 1 1,65536,0",
               "imageout 10 1 1 1,x,0", "session 0 0 0 - p", "session 0 0 0 - q1 0,0,0",
               "session 0 0 0 - r 0,0,0", "session 0 0 0 65536 p 0,0,0", "session 0 0 0 1,,2 p 0,0,0",
               "session 0 0 0 b0 p 0,0,0", "session 0 0 0 1+2 p 0,0,0", "single 1 0 0 - -",
               "single 1 0 0 65536 - 0,0,0", "single x 0 0 - - 0,0,0", "single 1 0 0 - - 0,0")


def compile_line(rng):
    text = source(rng)
    if len(text) > 8000:
        table = rng.choice((R.MAX_CODE - 1, R.MAX_CODE, 20000, 70000))
    elif rng.randrange(4):
        table = rng.choice((R.MAX_CODE, R.MAX_CODE, 20000, 1000, 100))
    else:
        try:
            need = len(R.Source(text).code())
        except R.Refusal:
            need = 5
        table = max(0, rng.choice((need - 1, need, need + 1, 0, need // 2, need - 2)))
    return "compile %d %s" % (table, hexed(text))


def tokens_line(rng):
    pick = rng.randrange(10)
    if pick < 5:
        return "tokens " + hexed(text_alone(rng))
    if pick < 7:
        return "tokens " + hexed(damage_bytes(rng, valid_source(rng)))
    return "tokens " + hexed(source(rng))


def parse_line(rng):
    pick = rng.randrange(8)
    if pick < 3:
        text = valid_source(rng)
    elif pick < 4:
        text = damage_bytes(rng, valid_source(rng))
    elif pick < 6:
        text = nested_source(rng)
    else:
        text = source(rng)
    return "parse " + hexed(text)


MAKERS = {"tokens": tokens_line, "parse": parse_line, "imagein": imagein_line, "imageout": imageout_line,
          "compile": compile_line, "session": session_line, "single": single_line,
          "long": long_line}


def line(rng, kinds):
    if chance(rng, 250):
        return rng.choice(NO_REQUESTS)
    kind = rng.choice(kinds)
    if kind in ("imagein", "imageout", "session", "single") and chance(rng, 2000):
        return huge_code_line(rng, kind)
    if kind in ("session", "single") and chance(rng, 1500):
        return big_store_line(rng, kind)
    return MAKERS[kind](rng)


def main():
    if len(sys.argv) not in (3, 4):
        print(__doc__)
        return 2
    rng = random.Random(sys.argv[1])
    kinds = sys.argv[3].split(",") if len(sys.argv) == 4 else list(KINDS)
    for kind in kinds:
        if kind not in MAKERS:
            print("no kind %s" % kind, file=sys.stderr)
            return 2
    out = sys.stdout
    for _ in range(int(sys.argv[2])):
        out.write(line(rng, kinds) + "\n")
    return 0


if __name__ == "__main__":
    sys.exit(main())
