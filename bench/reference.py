#!/usr/bin/env python3
"""An independent program of the rules: text, grammar, names, types, sizes, code, image, machine.

It reads requests of the batch protocol from standard input, one to a line, and writes one answer
line to each.  It is written for clearness, not speed, and shares nothing with the proved program.

    reference.py                  answer requests
    reference.py --selfcheck      the worked examples
    reference.py --agree [N] [S]  compile N random valid sources (seed S), run the code and the
                                  statements' meaning, and compare writes, cells and endings
"""
import re
import sys


class Refusal(Exception):
    def __init__(self, number, place):
        Exception.__init__(self, number, place)
        self.number = number
        self.place = place


# ---------------------------------------------------------------------------------------------
# Text
# ---------------------------------------------------------------------------------------------

MAX_SOURCE = 32768
CAPITALS = frozenset(b"ABCDEFGHIJKLMNOPQRSTUVWXYZ")
DIGITS = frozenset(b"0123456789")
OCTALS = frozenset(b"01234567")
IN_WORD = CAPITALS | DIGITS | frozenset(b"'")
BLANKS = frozenset(b" \r\n")
TWO_BYTES = (b":=", b"<>", b"<=", b">=")
ONE_BYTE = frozenset(b";,.():=<>+-*/&")

RESERVED = frozenset("""
BEGIN END INTEGER LOGICAL ARRAY IF THEN ELSE CASE OF WHILE DO UNTIL FOR STEP OR AND MOD LNOT LAND
XOR LOR LSL LSR ASR CSL CSR TRUE FALSE COMMENT
""".split())


def run_of(source, place, allowed):
    """The place after the longest run of allowed bytes from a place."""
    while place < len(source) and source[place] in allowed:
        place += 1
    return place


def cut(source):
    """The tokens of a source: (place, kind, text), kind one of w n o s.  The whole text is cut."""
    if len(source) > MAX_SOURCE:
        raise Refusal(1, MAX_SOURCE)
    tokens = []
    at = 0
    while at < len(source):
        byte = source[at]
        if byte in BLANKS:
            at += 1
            continue
        if source[at:at + 2] == b"<<":
            close = source.find(b">>", at + 2)
            if close < 0:
                raise Refusal(4, at)
            at = close + 2
            continue
        if byte in CAPITALS:
            end = run_of(source, at, IN_WORD)
            if end - at > 15:
                raise Refusal(3, at)
            kind = "w"
        elif byte in DIGITS:
            end = run_of(source, at, DIGITS)
            if over(source[at:end], 10, 32767):
                raise Refusal(3, at)
            kind = "n"
        elif byte == ord("%"):
            end = run_of(source, at + 1, OCTALS)
            if end == at + 1 or over(source[at + 1:end], 8, 65535):
                raise Refusal(3, at)
            kind = "o"
        elif source[at:at + 2] in TWO_BYTES:
            end = at + 2
            kind = "s"
        elif byte in ONE_BYTE:
            end = at + 1
            kind = "s"
        else:
            raise Refusal(2, at)
        tokens.append((at, kind, source[at:end].decode("ascii")))
        at = end
    return tokens


def over(digits, base, bound):
    """Does the number written by these digits pass the bound?  Leading zeros do not count."""
    digits = digits.lstrip(b"0")
    return len(digits) > 8 or (digits != b"" and int(digits, base) > bound)


# ---------------------------------------------------------------------------------------------
# Grammar
# ---------------------------------------------------------------------------------------------
# Trees are tuples.  A chain of operators of equal strength is one flat entry, grouped to the left.
#   expressions   ("const", word, type)
#                 ("var", name, place, sub)          sub: None or (place of the parenthesis, expr)
#                 ("convert", type, expr)
#                 ("post", expr, [("FLD", a, b) or ("SHF", kind, b)])
#                 ("neg", place, expr)
#                 ("chain", expr, [(operator, place, expr)])
#                 ("relation", expr, operator, place, expr)
#                 ("lnot", place, expr)
#   conditions    a list of clauses, each a list of (place of the first token, expr)
#   statements    ("empty",) ("list", [...]) ("assign", var, field or None, place, expr)
#                 ("if", cond, yes, no or None) ("case", place, expr, [...]) ("while", cond, body)
#                 ("do", body, cond) ("for", place, name, name's place, first, step, limit, body)

LEVELS = 32
RELATIONS = ("=", "<>", "<", "<=", ">", ">=")
SHIFTS = ("LSL", "LSR", "ASR", "CSL", "CSR")


class Reader:
    """Reads tokens by the grammar.  The refusal 5 stands at the first token with which the tokens
    so far begin no program: every choice is by one token, and no token is taken that cannot follow."""

    def __init__(self, tokens, length):
        self.tokens = tokens
        self.length = length
        self.index = 0
        self.level = 0
        self.declared = []      # (name, place, type, None or (low, place of low, high)), in order
        self.used = []          # (name, place, subscripted), in order
        self.numbers = []       # (fault?, place) of fields and shifts
        self.look()

    def look(self):
        if self.index < len(self.tokens):
            self.place, kind, self.text = self.tokens[self.index]
            if kind == "w":
                self.now = self.text if self.text in RESERVED else "name"
            elif kind == "s":
                self.now = self.text
            else:
                self.now = {"n": "decimal", "o": "octal"}[kind]
        else:
            self.place, self.now, self.text = self.length, "nothing left", ""

    def fail(self):
        raise Refusal(5, self.place)

    def take(self, wanted=None):
        """Take the present token, which must be of the wanted sort; answer its text and place."""
        if wanted is not None and self.now != wanted:
            self.fail()
        answer = self.text, self.place
        self.index += 1
        self.look()
        return answer

    def open(self, wanted=None):
        """Take a token that opens a level."""
        if wanted is not None and self.now != wanted:
            self.fail()
        self.level += 1
        if self.level > LEVELS:
            raise Refusal(6, self.place)
        return self.take()

    def close(self):
        self.level -= 1

    def decimal(self):
        text, place = self.take("decimal")
        return int(text), place

    # program, declarations, statements

    def program(self):
        self.open("BEGIN")
        while self.now in ("INTEGER", "LOGICAL", "ARRAY"):
            self.declaration()
            self.take(";")
        body = self.list()
        self.take("END")
        self.close()
        self.take(".")
        if self.now != "nothing left":
            self.fail()
        return ("list", body)

    def declaration(self):
        sort = "LOGICAL"
        if self.now != "ARRAY":
            sort, _ = self.take()
        if self.now == "ARRAY":
            self.take()
            self.array(sort)
            while self.now == ",":
                self.take()
                self.array(sort)
        else:
            self.simple(sort)
            while self.now == ",":
                self.take()
                self.simple(sort)

    def simple(self, sort):
        name, place = self.take("name")
        self.declared.append((name, place, sort, None))

    def array(self, sort):
        name, place = self.take("name")
        self.take("(")
        low, low_place = self.decimal()
        self.take(":")
        high, _ = self.decimal()
        self.take(")")
        self.declared.append((name, place, sort, (low, low_place, high)))

    def list(self):
        statements = [self.statement()]
        while self.now == ";":
            self.take()
            statements.append(self.statement())
        return statements

    def statement(self):
        now = self.now
        if now == "name":
            return self.assignment()
        if now == "BEGIN":
            self.open()
            body = self.list()
            self.take("END")
            self.close()
            return ("list", body)
        if now == "IF":
            self.open()
            cond = self.cond()
            self.take("THEN")
            yes = self.statement()
            no = None
            if self.now == "ELSE":
                self.take()
                no = self.statement()
            self.close()
            return ("if", cond, yes, no)
        if now == "CASE":
            _, place = self.open()
            index = self.expr()
            self.take("OF")
            self.take("BEGIN")
            body = self.list()
            self.take("END")
            self.close()
            return ("case", place, index, body)
        if now == "WHILE":
            self.open()
            cond = self.cond()
            self.take("DO")
            body = self.statement()
            self.close()
            return ("while", cond, body)
        if now == "DO":
            self.open()
            body = self.statement()
            self.take("UNTIL")
            cond = self.cond()
            self.close()
            return ("do", body, cond)
        if now == "FOR":
            _, place = self.open()
            name, name_place = self.take("name")
            self.used.append((name, name_place, False))
            self.take(":=")
            first = self.expr()
            step = None
            if self.now == "STEP":
                self.take()
                step = self.expr()
            self.take("UNTIL")
            limit = self.expr()
            self.take("DO")
            body = self.statement()
            self.close()
            return ("for", place, name, name_place, first, step, limit, body)
        return ("empty",)

    def assignment(self):
        left = self.variable()
        field = None
        if self.now == ".":
            field = self.field()
        _, place = self.take(":=")
        return ("assign", left, field, place, self.expr())

    # conditions and expressions

    def cond(self):
        clauses = [self.clause()]
        while self.now == "OR":
            self.take()
            clauses.append(self.clause())
        return clauses

    def clause(self):
        parts = [(self.place, self.expr())]
        while self.now == "AND":
            self.take()
            parts.append((self.place, self.expr()))
        return parts

    def chain(self, part, operators):
        first = part()
        rest = []
        while self.now in operators:
            operator, place = self.take()
            rest.append((operator, place, part()))
        return ("chain", first, rest) if rest else first

    def expr(self):
        return self.chain(self.xors, ("LOR",))

    def xors(self):
        return self.chain(self.lands, ("XOR",))

    def lands(self):
        return self.chain(self.negation, ("LAND",))

    def negation(self):
        if self.now == "LNOT":
            _, place = self.open()
            inner = self.negation()
            self.close()
            return ("lnot", place, inner)
        return self.relation()

    def relation(self):
        left = self.sum()
        if self.now in RELATIONS:
            operator, place = self.take()
            return ("relation", left, operator, place, self.sum())
        return left

    def sum(self):
        minus = None
        if self.now == "-":
            _, minus = self.take()
        first = self.term()
        if minus is not None:
            first = ("neg", minus, first)
        rest = []
        while self.now in ("+", "-"):
            operator, place = self.take()
            rest.append((operator, place, self.term()))
        return ("chain", first, rest) if rest else first

    def term(self):
        return self.chain(self.factor, ("*", "/", "MOD"))

    def factor(self):
        inner = self.primary()
        after = []
        while self.now in (".", "&"):
            if self.now == ".":
                after.append(("FLD",) + self.field())
            else:
                self.take()
                if self.now not in SHIFTS:
                    self.fail()
                kind, _ = self.take()
                self.take("(")
                count, place = self.decimal()
                self.take(")")
                self.numbers.append((count > 15, place))
                after.append(("SHF", SHIFTS.index(kind), count))
        return ("post", inner, after) if after else inner

    def field(self):
        self.take(".")
        self.take("(")
        start, place = self.decimal()
        self.take(":")
        length, _ = self.decimal()
        self.take(")")
        self.numbers.append((not field_good(start, length), place))
        return start, length

    def primary(self):
        now = self.now
        if now == "decimal":
            text, _ = self.take()
            return ("const", int(text), "INTEGER")
        if now == "octal":
            text, _ = self.take()
            return ("const", int(text[1:], 8), "LOGICAL")
        if now == "TRUE" or now == "FALSE":
            self.take()
            return ("const", 65535 if now == "TRUE" else 0, "LOGICAL")
        if now == "name":
            return self.variable()
        if now == "(":
            _, inner = self.parenthesis()
            return inner
        if now == "INTEGER" or now == "LOGICAL":
            self.take()
            _, inner = self.parenthesis()
            return ("convert", now, inner)
        self.fail()

    def variable(self):
        name, place = self.take("name")
        self.used.append((name, place, self.now == "("))
        sub = None
        if self.now == "(":
            sub = self.parenthesis()
        return ("var", name, place, sub)

    def parenthesis(self):
        """The parenthesis of an expression: its place and the expression."""
        _, place = self.open("(")
        inner = self.expr()
        self.take(")")
        self.close()
        return place, inner


def field_good(start, length):
    return 1 <= length <= 15 and start + length <= 16


# ---------------------------------------------------------------------------------------------
# Names, types, sizes
# ---------------------------------------------------------------------------------------------

MAX_NAMES = 64
MAX_CELLS = 4096


def judge_names(reader):
    """The table of names: name -> (type, cells or None).  All faults stand at names, and names are
    gone over in the order of their places, so the first fault has the smallest place."""
    table = {}
    for name, place, sort, bounds in reader.declared:
        if name in table:
            raise Refusal(8, place)
        if len(table) == MAX_NAMES:
            raise Refusal(9, place)
        table[name] = (sort, None if bounds is None else bounds[2] + 1)
    for name, place, subscripted in reader.used:
        if name not in table:
            raise Refusal(7, place)
        if subscripted != (table[name][1] is not None):
            raise Refusal(10, place)
    return table


class Types:
    """Gathers the places of all faults of type; the smallest decides."""

    def __init__(self, table):
        self.table = table
        self.faults = []

    def want(self, good, place):
        if not good:
            self.faults.append(place)

    def expr(self, e):
        """The type of an expression; an operator has that of its left or only side, faulty or not."""
        form = e[0]
        if form == "const":
            return e[2]
        if form == "var":
            if e[3] is not None:
                place, inner = e[3]
                self.want(self.expr(inner) == "INTEGER", place)
            return self.table[e[1]][0]
        if form == "convert":
            self.expr(e[2])
            return e[1]
        if form == "post":
            return self.expr(e[1])
        if form == "neg":
            sort = self.expr(e[2])
            self.want(sort == "INTEGER", e[1])
            return sort
        if form == "lnot":
            sort = self.expr(e[2])
            self.want(sort == "LOGICAL", e[1])
            return sort
        if form == "relation":
            left = self.expr(e[1])
            right = self.expr(e[4])
            self.want(left == right, e[3])
            return "LOGICAL"
        assert form == "chain"
        left = self.expr(e[1])
        for operator, place, part in e[2]:
            right = self.expr(part)
            self.want(left == right, place)
            if operator in ("LAND", "XOR", "LOR"):
                self.want(left == "LOGICAL" and right == "LOGICAL", place)
        return left

    def cond(self, clauses):
        for clause in clauses:
            for place, e in clause:
                self.want(self.expr(e) == "LOGICAL", place)

    def statement(self, s):
        form = s[0]
        if form == "list":
            for part in s[1]:
                self.statement(part)
        elif form == "assign":
            left = self.expr(s[1])
            self.want(left == self.expr(s[4]), s[3])
        elif form == "if":
            self.cond(s[1])
            self.statement(s[2])
            if s[3] is not None:
                self.statement(s[3])
        elif form == "case":
            self.want(self.expr(s[2]) == "INTEGER", s[1])
            for part in s[3]:
                self.statement(part)
        elif form == "while":
            self.cond(s[1])
            self.statement(s[2])
        elif form == "do":
            self.statement(s[1])
            self.cond(s[2])
        elif form == "for":
            _, place, name, _, first, step, limit, body = s
            self.want(self.table[name][0] == "INTEGER", place)
            for e in (first, step, limit):
                if e is not None:
                    self.want(self.expr(e) == "INTEGER", place)
            self.statement(body)
        else:
            assert form == "empty"


def judge_sizes(reader):
    """The cell of each name, and the number of cells."""
    faults = []
    cells = 0
    layout = {}
    for name, place, _, bounds in reader.declared:
        layout[name] = cells
        before = cells
        cells += 1 if bounds is None else bounds[2] + 1
        if before <= MAX_CELLS < cells:
            faults.append((place, 13))
        if bounds is not None and bounds[0] != 0:
            faults.append((bounds[1], 12))
    for fault, place in reader.numbers:
        if fault:
            faults.append((place, 12))
    if faults:
        place, number = min(faults)
        raise Refusal(number, place)
    return layout, cells


# ---------------------------------------------------------------------------------------------
# Entries of the syntax list, counted on the trees
# ---------------------------------------------------------------------------------------------

def entries_of(e):
    form = e[0]
    if form == "const":
        return 1
    if form == "var":
        return 1 if e[3] is None else entries_of(e[3][1]) + 1
    if form in ("convert", "neg", "lnot"):
        return entries_of(e[2]) + 1
    if form == "post":
        return entries_of(e[1]) + len(e[2])
    if form == "relation":
        return entries_of(e[1]) + entries_of(e[4]) + 1
    assert form == "chain"
    return entries_of(e[1]) + sum(entries_of(part) + 1 for _, _, part in e[2])


def condition_entries(clauses):
    """A Test after each expr, an Or between clauses."""
    return sum(entries_of(e) + 1 for clause in clauses for _, e in clause) + len(clauses) - 1


def statement_entries(s):
    form = s[0]
    if form == "empty":
        return 0
    if form == "list":
        return sum(statement_entries(part) for part in s[1])
    if form == "assign":
        _, (_, _, _, subscript), field, _, value = s
        plain = subscript is None
        before = 0 if plain else entries_of(subscript[1]) + 1     # Checked or FetchAt
        if field is None:
            return before + entries_of(value) + 1
        return before + (1 if plain else 0) + entries_of(value) + 2
    if form == "if":
        _, test, yes, no = s
        otherwise = 0 if no is None else 1 + statement_entries(no)
        return 1 + condition_entries(test) + 1 + statement_entries(yes) + otherwise + 1
    if form == "case":
        return entries_of(s[2]) + 1 + sum(statement_entries(part) + 2 for part in s[3]) + 1
    if form in ("while", "do"):
        test, body = (s[1], s[2]) if form == "while" else (s[2], s[1])
        return 1 + condition_entries(test) + 1 + statement_entries(body) + 1
    assert form == "for"
    _, _, _, _, first, step, limit, body = s
    by = 0 if step is None else entries_of(step)
    return entries_of(first) + 1 + by + 1 + entries_of(limit) + 1 + statement_entries(body) + 2


def entries(text):
    """How many entries the syntax list of a source has."""
    reader = Reader(cut(text), len(text))
    body = reader.program()
    return len(reader.declared) + statement_entries(body)


# ---------------------------------------------------------------------------------------------
# Code
# ---------------------------------------------------------------------------------------------

(HALT, LIT, LOAD, STOR, LDX, STX, CHK, DUP, DROP, ADD, SUB, MUL, DIV, REM, NEG, LADD, LSUB, LMUL,
 LDIV, LREM, CMP, LCMP, AND, OR, XOR, NOT, FLD, DEP, SHF, BR, BRE, CASE, FOR, NEXT) = range(34)

LAST = 33
MAX_CODE = 16383

# How many operands each instruction's row names: 0, 1 (a) or 2 (a and b).
NAMED = [0] * 34
for _n in (LIT, LOAD, STOR, CHK, DROP, CMP, LCMP, BR, BRE):
    NAMED[_n] = 1
for _n in (LDX, STX, FLD, DEP, SHF, CASE, FOR, NEXT):
    NAMED[_n] = 2

INTEGER_CODE = {"+": ADD, "-": SUB, "*": MUL, "/": DIV, "MOD": REM}
LOGICAL_CODE = {"+": LADD, "-": LSUB, "*": LMUL, "/": LDIV, "MOD": LREM}
BITS_CODE = {"LAND": AND, "XOR": XOR, "LOR": OR}


class Emitter:
    def __init__(self, table, layout):
        self.table = table
        self.layout = layout
        self.code = []

    def here(self):
        return len(self.code)

    def emit(self, number, a=0, b=0):
        self.code.append([number, a, b])
        return len(self.code) - 1

    def expr(self, e):
        """Emits an expression; answers its type."""
        form = e[0]
        if form == "const":
            self.emit(LIT, e[1])
            return e[2]
        if form == "var":
            _, name, _, sub = e
            if sub is None:
                self.emit(LOAD, self.layout[name])
            else:
                self.expr(sub[1])
                self.emit(LDX, self.layout[name], self.table[name][1])
            return self.table[name][0]
        if form == "convert":
            self.expr(e[2])
            return e[1]
        if form == "post":
            sort = self.expr(e[1])
            for what, a, b in e[2]:
                self.emit(FLD if what == "FLD" else SHF, a, b)
            return sort
        if form == "neg":
            self.expr(e[2])
            self.emit(NEG)
            return "INTEGER"
        if form == "lnot":
            self.expr(e[2])
            self.emit(NOT)
            return "LOGICAL"
        if form == "relation":
            sort = self.expr(e[1])
            self.expr(e[4])
            self.emit(CMP if sort == "INTEGER" else LCMP, RELATIONS.index(e[2]))
            return "LOGICAL"
        sort = self.expr(e[1])
        for operator, _, part in e[2]:
            self.expr(part)
            if operator in BITS_CODE:
                self.emit(BITS_CODE[operator])
            elif sort == "INTEGER":
                self.emit(INTEGER_CODE[operator])
            else:
                self.emit(LOGICAL_CODE[operator])
        return sort

    def aim(self, places, target):
        """Sets the target of branches emitted before; FOR has it as its second operand."""
        for place in places:
            entry = self.code[place]
            entry[2 if entry[0] == FOR else 1] = target

    def cond(self, clauses):
        """Emits a condition, whose true place is right after it; answers the branches that go to
        its false place."""
        to_true = []
        to_next = []
        for index, clause in enumerate(clauses):
            self.aim(to_next, self.here())
            to_next = []
            for _, e in clause:
                self.expr(e)
                to_next.append(self.emit(BRE))
            if index < len(clauses) - 1:
                to_true.append(self.emit(BR))
        self.aim(to_true, self.here())
        return to_next

    def statement(self, s):
        form = s[0]
        if form == "list":
            for part in s[1]:
                self.statement(part)
        elif form == "assign":
            self.assign(s)
        elif form == "if":
            _, cond, yes, no = s
            to_false = self.cond(cond)
            self.statement(yes)
            if no is None:
                self.aim(to_false, self.here())
            else:
                out = self.emit(BR)
                self.aim(to_false, self.here())
                self.statement(no)
                self.aim([out], self.here())
        elif form == "case":
            _, _, index, body = s
            self.expr(index)
            self.emit(CASE, self.here() + 1, len(body))
            ways = [self.emit(BR) for _ in body]
            outs = []
            for way, part in zip(ways, body):
                self.aim([way], self.here())
                self.statement(part)
                outs.append(self.emit(BR))
            self.aim(outs, self.here())
        elif form == "while":
            start = self.here()
            to_false = self.cond(s[1])
            self.statement(s[2])
            self.emit(BR, start)
            self.aim(to_false, self.here())
        elif form == "do":
            start = self.here()
            self.statement(s[1])
            self.aim(self.cond(s[2]), start)
        elif form == "for":
            _, _, name, _, first, step, limit, body = s
            cell = self.layout[name]
            self.expr(first)
            self.emit(STOR, cell)
            if step is None:
                self.emit(LIT, 1)
            else:
                self.expr(step)
            self.expr(limit)
            test = self.emit(FOR, cell)
            self.statement(body)
            self.emit(NEXT, cell, test)
            self.aim([test], self.here())
            self.emit(DROP, 2)

    def assign(self, s):
        _, (_, name, _, sub), field, _, value = s
        cell = self.layout[name]
        count = self.table[name][1]
        if sub is None:
            if field is not None:
                self.emit(LOAD, cell)
        else:
            self.expr(sub[1])
            if field is None:
                self.emit(CHK, count)
            else:
                self.emit(DUP)
                self.emit(LDX, cell, count)
        self.expr(value)
        if field is not None:
            self.emit(DEP, field[0], field[1])
        if sub is None:
            self.emit(STOR, cell)
        else:
            self.emit(STX, cell, count)


CHANGE = {LIT: 1, LOAD: 1, STOR: -1, STX: -2, DUP: 1, CMP: -1, LCMP: -1, AND: -1, OR: -1, XOR: -1,
          DEP: -1, BRE: -1, CASE: -1, ADD: -1, SUB: -1, MUL: -1, DIV: -1, REM: -1, LADD: -1,
          LSUB: -1, LMUL: -1, LDIV: -1, LREM: -1}


def depth_of(code):
    """The largest running total of pushes less pops in code order."""
    total = largest = 0
    for number, a, _ in code:
        total += -a if number == DROP else CHANGE.get(number, 0)
        largest = max(largest, total)
    return largest


class Source:
    """A source that passed text, grammar, names, types and sizes."""

    def __init__(self, text):
        self.length = len(text)
        reader = Reader(cut(text), len(text))
        self.body = reader.program()
        self.table = judge_names(reader)
        types = Types(self.table)
        types.statement(self.body)
        if types.faults:
            raise Refusal(11, min(types.faults))
        self.layout, self.cells = judge_sizes(reader)

    def code(self):
        emitter = Emitter(self.table, self.layout)
        emitter.statement(self.body)
        emitter.emit(HALT)
        return [tuple(entry) for entry in emitter.code]


def compile_source(text, table):
    """Cells, depth and instructions; table is the number of entries lent."""
    source = Source(text)
    code = source.code()
    if len(code) > min(MAX_CODE, table):
        raise Refusal(14, source.length)
    return source.cells, depth_of(code), code


# ---------------------------------------------------------------------------------------------
# Operations on words
# ---------------------------------------------------------------------------------------------

class Stop(Exception):
    def __init__(self, number):
        Exception.__init__(self, number)
        self.number = number


def signed(word):
    return word - 65536 if word >= 32768 else word


def integer(value):
    """The word of an INTEGER result, or stop 1."""
    if not -32768 <= value <= 32767:
        raise Stop(1)
    return value & 65535


def quotient(left, right):
    """Toward zero."""
    size = abs(left) // abs(right)
    return size if (left < 0) == (right < 0) else -size


def integer_operation(operator, left, right):
    left, right = signed(left), signed(right)
    if operator == "+":
        return integer(left + right)
    if operator == "-":
        return integer(left - right)
    if operator == "*":
        return integer(left * right)
    if right == 0:
        raise Stop(2)
    if operator == "/":
        return integer(quotient(left, right))
    assert operator == "MOD"
    return integer(left - right * quotient(left, right))


def logical_operation(operator, left, right):
    if operator == "+":
        return (left + right) % 65536
    if operator == "-":
        return (left - right) % 65536
    if operator == "*":
        return left * right % 65536
    if right == 0:
        raise Stop(2)
    if operator == "/":
        return left // right
    assert operator == "MOD"
    return left % right


def bits_operation(operator, left, right):
    if operator == "LAND":
        return left & right
    if operator == "LOR":
        return left | right
    assert operator == "XOR"
    return left ^ right


def compared(relation, left, right):
    holds = (left == right, left != right, left < right, left <= right, left > right,
             left >= right)[relation]
    return 65535 if holds else 0


def field_of(word, start, length):
    """The bits from bit start; bit 0 is the highest."""
    return (word >> (16 - start - length)) & ((1 << length) - 1)


def deposited(word, value, start, length):
    low = 16 - start - length
    mask = ((1 << length) - 1) << low
    return (word & ~mask & 65535) | ((value << low) & mask)


def shifted(kind, word, count):
    if kind == 0:
        return (word << count) & 65535
    if kind == 1:
        return word >> count
    if kind == 2:
        return (signed(word) >> count) & 65535
    if kind == 3:
        return ((word << count) | (word >> (16 - count))) & 65535
    assert kind == 4
    return ((word >> count) | (word << (16 - count))) & 65535


def need_index(index, count, stop):
    """An index, read as INTEGER, from 0 to below a count; else the stop."""
    index = signed(index)
    if not 0 <= index < count:
        raise Stop(stop)
    return index


# ---------------------------------------------------------------------------------------------
# What a source means, on its statements
# ---------------------------------------------------------------------------------------------

class BoundMet(Exception):
    pass


class Meaning:
    """Works out a source from the words of a store.  The bound counts the turns of each execution
    of each loop; it is met when one more turn would begin."""

    def __init__(self, source, words, bound):
        self.table = source.table
        self.layout = source.layout
        self.words = list(words)
        self.bound = bound
        self.writes = []
        self.budget = 200000        # a guard of this program alone, against nested long loops
        try:
            self.statement(source.body)
            self.ending = 0
        except Stop as stop:
            self.ending = stop.number
        except BoundMet:
            self.ending = None

    def write(self, cell, word):
        self.words[cell] = word
        self.writes.append((cell, word))

    def turn(self, done):
        self.budget -= 1
        if done == self.bound or self.budget < 0:
            raise BoundMet()

    def expr(self, e):
        """The word and the type of an expression."""
        form = e[0]
        if form == "const":
            return e[1], e[2]
        if form == "var":
            return self.words[self.cell(e)], self.table[e[1]][0]
        if form == "convert":
            return self.expr(e[2])[0], e[1]
        if form == "post":
            word, sort = self.expr(e[1])
            for what, a, b in e[2]:
                word = field_of(word, a, b) if what == "FLD" else shifted(a, word, b)
            return word, sort
        if form == "neg":
            return integer(-signed(self.expr(e[2])[0])), "INTEGER"
        if form == "lnot":
            return self.expr(e[2])[0] ^ 65535, "LOGICAL"
        if form == "relation":
            left, sort = self.expr(e[1])
            right, _ = self.expr(e[4])
            if sort == "INTEGER":
                left, right = signed(left), signed(right)
            return compared(RELATIONS.index(e[2]), left, right), "LOGICAL"
        left, sort = self.expr(e[1])
        for operator, _, part in e[2]:
            right, _ = self.expr(part)
            if operator in BITS_CODE:
                left = bits_operation(operator, left, right)
            elif sort == "INTEGER":
                left = integer_operation(operator, left, right)
            else:
                left = logical_operation(operator, left, right)
        return left, sort

    def cell(self, variable):
        """The cell of a variable, its subscript worked out and tested."""
        _, name, _, sub = variable
        if sub is None:
            return self.layout[name]
        return self.layout[name] + need_index(self.expr(sub[1])[0], self.table[name][1], 3)

    def cond(self, clauses):
        for clause in clauses:
            for _, e in clause:
                if self.expr(e)[0] % 2 == 0:
                    break
            else:
                return True
        return False

    def statement(self, s):
        form = s[0]
        if form == "list":
            for part in s[1]:
                self.statement(part)
        elif form == "assign":
            _, left, field, _, value = s
            cell = self.cell(left)
            before = self.words[cell]
            word, _ = self.expr(value)
            if field is not None:
                word = deposited(before, word, field[0], field[1])
            self.write(cell, word)
        elif form == "if":
            if self.cond(s[1]):
                self.statement(s[2])
            elif s[3] is not None:
                self.statement(s[3])
        elif form == "case":
            index = need_index(self.expr(s[2])[0], len(s[3]), 4)
            self.statement(s[3][index])
        elif form == "while":
            done = 0
            while self.cond(s[1]):
                self.turn(done)
                done += 1
                self.statement(s[2])
        elif form == "do":
            done = 0
            while True:
                self.turn(done)
                done += 1
                self.statement(s[1])
                if self.cond(s[2]):
                    break
        elif form == "for":
            _, _, name, _, first, step, limit, body = s
            cell = self.layout[name]
            self.write(cell, self.expr(first)[0])
            step = 1 if step is None else signed(self.expr(step)[0])
            limit = signed(self.expr(limit)[0])
            done = 0
            while True:
                value = signed(self.words[cell])
                if not (value <= limit if step >= 0 else value >= limit):
                    break
                self.turn(done)
                done += 1
                self.statement(body)
                self.write(cell, integer(signed(self.words[cell]) + step))


# ---------------------------------------------------------------------------------------------
# The image
# ---------------------------------------------------------------------------------------------

def number_out(value):
    groups = [value & 127]
    value >>= 7
    while value:
        groups.append(128 | (value & 127))
        value >>= 7
    return bytes(reversed(groups))


SHORT_OUT = [number_out(value) for value in range(65536)]


def bad_header(cells, count):
    return cells > MAX_CELLS or count == 0 or count > MAX_CODE


def bad_entry(entry):
    number, a, b = entry
    if number > LAST:
        return True
    named = NAMED[number]
    return (named < 2 and b != 0) or (named < 1 and a != 0)


def image_out(room, cells, depth, code):
    if bad_header(cells, len(code)):
        raise Refusal(28, 0)
    for index, entry in enumerate(code):
        if bad_entry(entry):
            raise Refusal(28, index)
    parts = [SHORT_OUT[cells], SHORT_OUT[depth], SHORT_OUT[len(code)]]
    for entry in code:
        for word in entry[:1 + NAMED[entry[0]]]:
            parts.append(SHORT_OUT[word])
    image = b"".join(parts)
    if len(image) > room:
        raise Refusal(27, len(image))
    return image


class ImageReader:
    def __init__(self, image):
        self.image = image
        self.at = 0

    def number(self):
        """A number and the place of its first byte."""
        first = self.at
        value = 0
        while True:
            if self.at == len(self.image):
                raise Refusal(20, len(self.image))
            byte = self.image[self.at]
            if self.at == first and byte == 128:
                raise Refusal(21, first)
            value = value * 128 + (byte & 127)
            if value > 65535:
                raise Refusal(22, first)
            self.at += 1
            if byte < 128:
                return value, first


def image_in(table, image):
    reader = ImageReader(image)
    cells, place = reader.number()
    if cells > MAX_CELLS:
        raise Refusal(25, place)
    depth, _ = reader.number()
    count, place = reader.number()
    if count == 0 or count > MAX_CODE:
        raise Refusal(25, place)
    if count > table:
        raise Refusal(26, place)
    code = []
    for _ in range(count):
        number, place = reader.number()
        if number > LAST:
            raise Refusal(23, place)
        operands = [0, 0]
        for index in range(NAMED[number]):
            operands[index], _ = reader.number()
        code.append((number, operands[0], operands[1]))
    if reader.at != len(image):
        raise Refusal(24, reader.at)
    return cells, depth, code


# ---------------------------------------------------------------------------------------------
# Stores
# ---------------------------------------------------------------------------------------------

MAX_STORE = 65535


class WordStore:
    def __init__(self, words):
        self.words = words

    def size(self):
        return min(len(self.words), MAX_STORE)

    def read(self, cell):
        if cell >= self.size():
            raise Refusal(36, cell)
        return self.words[cell]

    def write(self, cell, word):
        if cell >= self.size():
            raise Refusal(36, cell)
        self.words[cell] = word

    def show(self):
        return ",".join(map(str, self.words)) or "-"


class ByteStore:
    def __init__(self, data):
        self.data = bytearray(data)

    def size(self):
        return min(len(self.data) // 2, MAX_STORE)

    def read(self, cell):
        if cell >= self.size():
            raise Refusal(36, cell)
        return self.data[2 * cell] * 256 + self.data[2 * cell + 1]

    def write(self, cell, word):
        if cell >= self.size():
            raise Refusal(36, cell)
        self.data[2 * cell] = word // 256
        self.data[2 * cell + 1] = word % 256

    def show(self):
        return "b" + (self.data.hex() or "-")


class JoinedStore:
    def __init__(self, first, second):
        self.first = first
        self.second = second

    def size(self):
        return min(self.first.size() + self.second.size(), MAX_STORE)

    def read(self, cell):
        if cell >= self.size():
            raise Refusal(36, cell)
        if cell < self.first.size():
            return self.first.read(cell)
        return self.second.read(cell - self.first.size())

    def write(self, cell, word):
        if cell >= self.size():
            raise Refusal(36, cell)
        if cell < self.first.size():
            self.first.write(cell, word)
        else:
            self.second.write(cell - self.first.size(), word)

    def show(self):
        return self.first.show() + "+" + self.second.show()


# ---------------------------------------------------------------------------------------------
# The machine
# ---------------------------------------------------------------------------------------------

MAX_STEPS = 4000000000

# Words that must lie on the stack; DROP needs as many as it drops.
NEEDED = [0] * 34
for _n in (STOR, LDX, CHK, DUP, NEG, NOT, FLD, SHF, BRE, CASE):
    NEEDED[_n] = 1
for _n in (STX, ADD, SUB, MUL, DIV, REM, LADD, LSUB, LMUL, LDIV, LREM, CMP, LCMP, AND, OR, XOR, DEP,
           FOR, NEXT):
    NEEDED[_n] = 2

CODE_OPERATION = {}
for _name, _n in INTEGER_CODE.items():
    CODE_OPERATION[_n] = (integer_operation, _name)
for _name, _n in LOGICAL_CODE.items():
    CODE_OPERATION[_n] = (logical_operation, _name)
for _name, _n in BITS_CODE.items():
    CODE_OPERATION[_n] = (bits_operation, _name)


def operands_good(number, a, b):
    named = NAMED[number]
    if named < 2 and b != 0 or named < 1 and a != 0:
        return False
    if number in (CMP, LCMP):
        return a <= 5
    if number in (FLD, DEP):
        return field_good(a, b)
    if number == SHF:
        return a <= 4 and b <= 15
    return True


class End(Exception):
    def __init__(self, ending):
        Exception.__init__(self, ending)
        self.ending = ending


class Session:
    """A session over a code, a lent stack (a list of words) and a store."""

    def __init__(self, code, cells, depth, stack, store):
        self.code = code
        self.cells = cells
        self.depth = depth
        self.stack = stack
        self.store = store
        self.check()
        self.instruction = 0
        self.height = 0
        self.steps = 0
        self.writes = 0
        self.ending = None
        self.written = []

    def check(self):
        if not 1 <= len(self.code) <= MAX_CODE:
            raise Refusal(30, 0)
        if len(self.stack) < self.depth:
            raise Refusal(31, 0)
        if self.store.size() < self.cells:
            raise Refusal(32, 0)

    def report(self):
        ending = "-" if self.ending is None else self.ending
        return "s %d %d %d %d %s" % (self.instruction, self.height, self.steps, self.writes, ending)

    def look(self, cell):
        return "w %d" % self.store.read(cell)

    def resume(self, limit):
        self.check()
        if limit == 0:
            raise Refusal(33, 0)
        if self.ending is not None:
            raise Refusal(34, 0)
        if self.steps == MAX_STEPS:
            raise Refusal(35, 0)
        grant = min(limit, MAX_STEPS - self.steps)
        while grant > 0 and self.ending is None:
            here = self.instruction
            if here < len(self.code) and self.code[here] == (BR, here, 0):
                # A branch to itself changes nothing but the count of steps.
                self.steps += grant
                break
            grant -= 1
            self.steps += 1
            try:
                self.step()
            except Stop as stop:
                self.ending = stop.number
            except End as end:
                self.ending = end.ending
        return self.report()

    def need_cell(self, cell):
        if cell >= self.store.size():
            raise End(9)

    def need_room(self):
        if self.height + 1 > self.depth:
            raise End(7)

    def write(self, cell, word):
        self.store.write(cell, word)
        self.writes += 1
        self.written.append((cell, word))

    def push(self, word):
        self.stack[self.height] = word
        self.height += 1

    def step(self):
        """One step.  Every way to end comes before the first change."""
        if self.instruction >= len(self.code):
            raise End(9)
        number, a, b = self.code[self.instruction]
        if number > LAST or not operands_good(number, a, b):
            raise End(8)
        if self.height < (a if number == DROP else NEEDED[number]):
            raise End(6)
        stack = self.stack
        top = self.height - 1
        following = self.instruction + 1
        if number == HALT:
            raise End(0)
        if number == LIT:
            self.need_room()
            self.push(a)
        elif number == LOAD:
            self.need_cell(a)
            self.need_room()
            self.push(self.store.read(a))
        elif number == STOR:
            self.need_cell(a)
            self.height -= 1
            self.write(a, stack[top])
        elif number == LDX:
            cell = a + need_index(stack[top], b, 3)
            self.need_cell(cell)
            stack[top] = self.store.read(cell)
        elif number == STX:
            cell = a + need_index(stack[top - 1], b, 3)
            self.need_cell(cell)
            self.height -= 2
            self.write(cell, stack[top])
        elif number == CHK:
            need_index(stack[top], a, 3)
        elif number == DUP:
            self.need_room()
            self.push(stack[top])
        elif number == DROP:
            self.height -= a
        elif number in CODE_OPERATION:
            operation, name = CODE_OPERATION[number]
            stack[top - 1] = operation(name, stack[top - 1], stack[top])
            self.height -= 1
        elif number == NEG:
            stack[top] = integer(-signed(stack[top]))
        elif number == CMP:
            stack[top - 1] = compared(a, signed(stack[top - 1]), signed(stack[top]))
            self.height -= 1
        elif number == LCMP:
            stack[top - 1] = compared(a, stack[top - 1], stack[top])
            self.height -= 1
        elif number == NOT:
            stack[top] ^= 65535
        elif number == FLD:
            stack[top] = field_of(stack[top], a, b)
        elif number == DEP:
            stack[top - 1] = deposited(stack[top - 1], stack[top], a, b)
            self.height -= 1
        elif number == SHF:
            stack[top] = shifted(a, stack[top], b)
        elif number == BR:
            following = a
        elif number == BRE:
            self.height -= 1
            if stack[top] % 2 == 0:
                following = a
        elif number == CASE:
            following = a + need_index(stack[top], b, 4)
            self.height -= 1
        elif number == FOR:
            self.need_cell(a)
            value = signed(self.store.read(a))
            step, limit = signed(stack[top - 1]), signed(stack[top])
            if not (value <= limit if step >= 0 else value >= limit):
                following = b
        else:
            assert number == NEXT
            self.need_cell(a)
            self.write(a, integer(signed(self.store.read(a)) + signed(stack[top - 1])))
            following = b
        self.instruction = following


# ---------------------------------------------------------------------------------------------
# Requests
# ---------------------------------------------------------------------------------------------

class NoRequest(Exception):
    pass


NUMBER = re.compile(r"[0-9]+\Z")
HEX = re.compile(r"(?:[0-9a-f][0-9a-f])+\Z")


def read_number(text):
    if not NUMBER.match(text):
        raise NoRequest("no number")
    return int(text)


def read_word(text):
    value = read_number(text)
    if value > 65535:
        raise NoRequest("word over 65535")
    return value


def read_hex(text):
    if text == "-":
        return b""
    if not HEX.match(text):
        raise NoRequest("bad hex")
    return bytes.fromhex(text)


def read_words(text):
    if text == "-":
        return []
    return [read_word(part) for part in text.split(",")]


def read_code(text):
    if text == "-":
        return []
    code = []
    for entry in text.split(";"):
        parts = entry.split(",")
        if len(parts) != 3:
            raise NoRequest("bad instruction")
        code.append((read_word(parts[0]), read_word(parts[1]), read_word(parts[2])))
    return code


def read_store(text):
    if text.startswith("b"):
        return ByteStore(read_hex(text[1:]))
    if "+" in text:
        first, second = text.split("+", 1)
        if not second.startswith("b"):
            raise NoRequest("bad store")
        return JoinedStore(WordStore(read_words(first)), ByteStore(read_hex(second[1:])))
    return WordStore(read_words(text))


def read_calls(text):
    if text == "-":
        return []
    calls = []
    for part in text.split(";"):
        if part == "p":
            calls.append(("p", 0))
        elif part[:1] == "r":
            calls.append(("r", read_number(part[1:])))
        elif part[:1] == "l":
            calls.append(("l", read_word(part[1:])))
        else:
            raise NoRequest("bad call")
    return calls


def show_code(code):
    return ";".join(["%d,%d,%d" % entry for entry in code]) or "-"


def show_refusal(refusal):
    return "no %d %d" % (refusal.number, refusal.place)


def answer_call(session, call):
    kind, value = call
    try:
        if kind == "p":
            return session.report()
        if kind == "l":
            return session.look(value)
        return session.resume(value)
    except Refusal as refusal:
        return show_refusal(refusal)


def answer_session(fields):
    cells, depth, length = read_word(fields[0]), read_word(fields[1]), read_number(fields[2])
    store, calls, code = read_store(fields[3]), read_calls(fields[4]), read_code(fields[5])
    session = Session(code, cells, depth, [0] * length, store)
    answers = [answer_call(session, call) for call in calls]
    return "|".join(answers) + " # " + store.show()


def answer_single(fields):
    limit, cells, depth = read_number(fields[0]), read_word(fields[1]), read_word(fields[2])
    stack, store, code = read_words(fields[3]), read_store(fields[4]), read_code(fields[5])
    try:
        answer = Session(code, cells, depth, stack, store).resume(limit)
    except Refusal as refusal:
        answer = show_refusal(refusal)
    afterwards = WordStore([0] * len(stack))
    return answer + " # " + store.show() + " # " + afterwards.show()


def answer_tokens(fields):
    tokens = cut(read_hex(fields[0]))
    return "ok" + "".join([" %d:%s:%s" % token for token in tokens])


def answer_parse(fields):
    return "ok %d" % entries(read_hex(fields[0]))


def answer_compile(fields):
    table, source = read_number(fields[0]), read_hex(fields[1])
    cells, depth, code = compile_source(source, table)
    return "ok %d %d %s" % (cells, depth, show_code(code))


def answer_imagein(fields):
    table, image = read_number(fields[0]), read_hex(fields[1])
    cells, depth, code = image_in(table, image)
    return "ok %d %d %s" % (cells, depth, show_code(code))


def answer_imageout(fields):
    room, cells, depth = read_number(fields[0]), read_word(fields[1]), read_word(fields[2])
    return "ok " + image_out(room, cells, depth, read_code(fields[3])).hex()


REQUESTS = {
    "tokens": (1, answer_tokens),
    "parse": (1, answer_parse),
    "compile": (2, answer_compile),
    "imagein": (2, answer_imagein),
    "imageout": (4, answer_imageout),
    "session": (6, answer_session),
    "single": (6, answer_single),
}


def answer(line):
    fields = line.split(" ")
    try:
        if fields[0] not in REQUESTS:
            raise NoRequest("unknown request")
        count, act = REQUESTS[fields[0]]
        if len(fields) != count + 1:
            raise NoRequest("wrong number of fields")
        return act(fields[1:])
    except NoRequest as reason:
        return "err %s" % reason
    except Refusal as refusal:
        return show_refusal(refusal)


def batch():
    out = sys.stdout
    for line in sys.stdin:
        out.write(answer(line.rstrip("\n")) + "\n")
    out.flush()


# ---------------------------------------------------------------------------------------------
# Checks of this program itself
# ---------------------------------------------------------------------------------------------

def compiled(text):
    return compile_source(text.encode(), MAX_CODE)


def ran(text, words, limit=100000):
    cells, depth, code = compiled(text)
    store = WordStore(list(words))
    session = Session(code, cells, depth, [0] * depth, store)
    session.resume(limit)
    return session, store.words


def refused(act, *arguments):
    try:
        act(*arguments)
    except Refusal as refusal:
        return refusal.number, refusal.place
    return None


def selfcheck():
    bad = []
    count = 0

    def same(what, got, wanted):
        nonlocal count
        count += 1
        if got != wanted:
            bad.append(what)
            print("%s: got %r, wanted %r" % (what, got, wanted))

    first = "BEGIN INTEGER N; N := 7 - 2 * 3; END."
    cells, depth, code = compiled(first)
    session, words = ran(first, [0])
    image = bytes.fromhex("0103070107010201030b0a030000")
    same("1 figures", (cells, depth, len(code)), (1, 3, 7))
    same("1 run", (words, session.writes, session.ending), ([1], 1, 0))
    same("1 image", image_out(14, cells, depth, code), image)
    same("1 image back", image_in(7, image), (cells, depth, code))
    same("2", compiled("BEGIN END."), (0, 0, [(HALT, 0, 0)]))
    same("3", refused(compiled, "BEGIN END"), (5, 9))
    same("4", refused(compiled, ""), (5, 0))
    same("5", refused(compiled, "BEGIN LOGICAL L; L := 1; END."), (11, 19))
    same("6", [number_out(n).hex() for n in (127, 128, 65535)], ["7f", "8100", "83ff7f"])
    same("7", refused(image_in, 8, b"\x80\x05"), (21, 0))
    same("8", ran("BEGIN LOGICAL L; L := %101.(8:2) END.", [9])[1], [1])
    session, words = ran("BEGIN INTEGER I; FOR I := 5 UNTIL 4 DO END.", [0])
    same("9", (words, session.writes, session.ending), ([5], 1, 0))
    session, words = ran("BEGIN INTEGER I; FOR I := 32767 UNTIL 32767 DO END.", [0])
    same("10", (words, session.ending), ([32767], 1))
    session, words = ran("BEGIN INTEGER J; IF J <> 0 AND 10/J > 2 THEN J := 1 END.", [0])
    same("11", (words, session.ending), ([0], 0))
    code = "1,7,0;1,2,0;1,3,0;11,0,0;10,0,0;3,0,0;0,0,0"
    for request, wanted in (
            ("imagein 8 010", "err bad hex"),
            ("imagein 8 0103070107010201030b0a030000", "ok 1 3 " + code),
            ("imagein 6 0103070107010201030b0a030000", "no 26 2"),
            ("imagein 8 8005", "no 21 0"),
            ("imageout 14 1 3 " + code, "ok 0103070107010201030b0a030000"),
            ("compile 100 424547494e20454e44", "no 5 9"),
            ("session 1 3 3 9 r3;p;l0;r9;r9 " + code,
             "s 3 3 3 0 -|s 3 3 3 0 -|w 9|s 6 0 7 1 0|no 34 0 # 1"),
            ("single 9 1 3 5,5,5,5 9 " + code, "s 6 0 7 1 0 # 1 # 0,0,0,0"),
            ("single 0 1 3 5,5,5 b00090 " + code, "err bad hex"),
            ("single 0 1 3 5,5,5 b00090a " + code, "no 33 0 # b00090a # 0,0,0"),
            ("single 4 1 3 5,5 7+b00 " + code, "no 31 0 # 7+b00 # 0,0")):
        same(request, answer(request), wanted)
    print("selfcheck: %d checks, %d differences" % (count, len(bad)))
    return 1 if bad else 0


def prefix(one, other):
    short = min(len(one), len(other))
    return one[:short] == other[:short]


def agree(count, seed):
    """Code and meaning of random valid sources: the same writes in the same order, the same cells
    and the same ending; where the bound or the limit is met first, the same writes so far."""
    import random
    sys.dont_write_bytecode = True
    import generate
    rng = random.Random(seed)
    bad = 0
    tally = {}
    for index in range(count):
        text = generate.valid_source(rng)
        try:
            source = Source(text)
        except Refusal as refusal:
            bad += 1
            print("not accepted: %s: %r" % (show_refusal(refusal), text))
            continue
        code = source.code()
        depth = depth_of(code)
        extra = rng.choice((0, 0, 3))
        words = generate.store_words(rng, source.cells + extra)
        bound = rng.choice((0, 1, 2, 5, 50, 1000))
        meaning = Meaning(source, words, bound)
        store = WordStore(list(words))
        session = Session(code, source.cells, depth, [0] * depth, store)
        session.resume(30000)
        if meaning.ending is None or session.ending is None:
            good = prefix(meaning.writes, session.written)
            if meaning.ending is not None:
                good = good and len(session.written) <= len(meaning.writes)
            if session.ending is not None:
                good = good and len(meaning.writes) <= len(session.written)
                good = good and session.ending <= 4
        else:
            good = (meaning.writes == session.written and meaning.words == store.words
                    and meaning.ending == session.ending and session.writes == len(meaning.writes)
                    and (session.height == 0 or session.ending != 0))
        key = (meaning.ending, session.ending)
        tally[key] = tally.get(key, 0) + 1
        if not good:
            bad += 1
            print("differ: %r from %r: meaning %r %r, code %r %r" % (
                text, words, meaning.ending, meaning.writes[:20], session.ending,
                session.written[:20]))
    for key in sorted(tally, key=str):
        print("meaning %s, code %s: %d" % (key[0], key[1], tally[key]))
    print("agree: %d sources, %d differences" % (count, bad))
    return 1 if bad else 0


def main():
    arguments = sys.argv[1:]
    if arguments[:1] == ["--selfcheck"]:
        return selfcheck()
    if arguments[:1] == ["--agree"]:
        numbers = [int(text) for text in arguments[1:]]
        return agree(*(numbers + [2000, 1][len(numbers):]))
    if arguments:
        print(__doc__)
        return 2
    batch()
    return 0


if __name__ == "__main__":
    sys.exit(main())
