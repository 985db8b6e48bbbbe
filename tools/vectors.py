#!/usr/bin/env python3
"""Makes the tables of requests and answers that `spl check` goes over.

    vectors.py make [NAME...]     crates/spl/data/NAME.vectors from tools/tables/NAME.txt (all of them if no name is given)
    vectors.py check TABLE...     answer the requests of tables by bench/reference.py, and compare
    vectors.py hex SOURCE         the HEX of a source
    vectors.py text HEX           the source of a HEX
    vectors.py figures SOURCE...  cells, depth, instructions and image bytes of sources, and where each name lies

Run it anywhere; paths in a table's input count from the top of the repository.  `make` takes what the input expects as the
authority: where bench/reference.py answers otherwise, the difference is printed, the status is 1, and the expectation goes into
the table.  What the input leaves open (instructions, the count of steps, cells not looked at) is the reference's.

A line of an input is one of these; one that ends with a backslash goes on in the next.

    # TEXT, or empty     copied into the table
    source               a source follows: lines `|TEXT`, joined by a line feed, none after the last
    pieces               a source follows: pieces joined by nothing; `|TEXT` as it is, `N|TEXT` N times, `#` in it being the
                         number of the turn from 0, `x|HEX` bytes
    file PATH            the source is a file
    figures C D N        the source compiles to C cells, depth D, N instructions
    table T figures ..   the same with a table of T entries instead of 16,383; so with `refused`
    code C D I; I; ..    the source compiles to exactly these instructions, by their names and operands
    refused N P          the source is refused with N at place P
    image HEX            the code's image: written into as much room as it needs, refused with a byte less, read back
    imaged               the same without expecting bytes
    run W.. = W.. ending E writes W     from these words of all cells to these, with that ending and count of writes;
                         a word is a number from -32,768 to 65,535, `w*n` is the word w n times
    start NAME=W,W ..    starting words, an array's from its place 0 or from `NAME(i)`; other cells begin as 0
    find NAME=W,W ..     run from the last `start` to the end, then look at these cells; `ending E` and `writes W` may follow.
                         `over bytes` or `over both` before the names: the store is of bytes, or of words and then bytes;
                         `steps N`: the first resume has that limit, and a report follows
    REQUEST -> ANSWER    copied; the reference must answer so

The answers are those of docs/BATCH.md and, for `compile`, `session` and `single`:

    compile TABLE HEX                            ok CELLS DEPTH INSTRS, or no REFUSAL PLACE
    session CELLS DEPTH STACK STORE CALLS INSTRS the answers to the calls with `|` between, ` # `, the store afterwards.  A call
                                                 is rN (resume), lN (look) or p (report); an answer s PLACE HEIGHT STEPS WRITES
                                                 ENDING, w WORD, or no REFUSAL PLACE; the ending is - while absent
"""
import glob
import os
import sys

sys.dont_write_bytecode = True
TOP = os.path.dirname(os.path.dirname(os.path.abspath(__file__)))
sys.path.insert(0, os.path.join(TOP, "bench"))
import reference as R

TABLE = 16383
ENOUGH = 1000000
NAMES = "HALT LIT LOAD STOR LDX STX CHK DUP DROP ADD SUB MUL DIV REM NEG LADD LSUB LMUL LDIV LREM CMP LCMP AND OR XOR NOT FLD DEP \
SHF BR BRE CASE FOR NEXT".split()


def hexed(source):
    return source.hex() or "-"


def word_of(text):
    """The word of a decimal number, which may be negative, or of an octal one."""
    if text.startswith("%"):
        return int(text[1:], 8)
    return int(text) & 65535


def words(text):
    """`1 -2 7*3 %17` as words."""
    out = []
    for part in text.replace(",", " ").split():
        word, _, times = part.partition("*")
        out += [word_of(word)] * int(times or 1)
    return out


def instructions(text):
    """`LIT 7; SUB` as instruction records."""
    out = []
    for part in text.split(";"):
        name, *operands = part.split()
        operands = [int(o) for o in operands]
        assert len(operands) == R.NAMED[NAMES.index(name)], part
        out.append(tuple([NAMES.index(name)] + operands + [0, 0])[:3])
    return out


def store_text(values, over):
    """A store of words, of bytes, or of both, in the protocol's form."""
    def joined(some):
        return ",".join(str(w) for w in some) or "-"

    def packed(some):
        return "b" + (b"".join(w.to_bytes(2, "big") for w in some).hex() or "-")
    if over == "bytes":
        return packed(values)
    if over == "both":
        half = (len(values) + 1) // 2
        return joined(values[:half]) + "+" + packed(values[half:])
    return joined(values)


class Maker:
    def __init__(self, path):
        self.path = path
        self.out = []
        self.number = 0
        self.differences = 0
        self.source = b""
        self.starting = ""

    def differ(self, what, expected, got):
        self.differences += 1
        print("%s:%d: %s: expected %s, the reference has %s" % (self.path, self.number, what, expected, got))

    def line(self, request, answer):
        self.out.append(request + " -> " + answer)

    def compiled(self):
        return R.Source(self.source)

    def figures_of(self):
        cells, depth, code = R.compile_source(self.source, TABLE)
        return cells, depth, code

    # what the lines of an input do

    def compile(self, table, kind, rest):
        request = "compile %d %s" % (table, hexed(self.source))
        got = R.answer(request)
        if kind == "refused":
            number, place = rest.split()
            answer = "no %s %s" % (number, place)
            if answer != got:
                self.differ("refusal", answer, got[:200])
        elif kind == "figures":
            wanted = [int(n) for n in rest.split()]
            answer = got
            if not got.startswith("ok"):
                self.differ("figures", wanted, got)
                return
            _, cells, depth, code = got.split(" ")
            found = [int(cells), int(depth), len(R.read_code(code))]
            if found != wanted:
                self.differ("figures", wanted, found)
                answer = "ok %d %d %s" % (wanted[0], wanted[1], code)
        else:
            cells, depth, code = rest.split(None, 2)
            answer = "ok %s %s %s" % (cells, depth, R.show_code(instructions(code)))
            if answer != got:
                self.differ("code", answer, got)
        self.line(request, answer)

    def image(self, expected):
        cells, depth, code = self.figures_of()
        image = R.image_out(1 << 18, cells, depth, code).hex()
        if expected and image != expected:
            self.differ("image", expected, image)
            image = expected
        size = len(image) // 2
        rest = "%d %d %s" % (cells, depth, R.show_code(code))
        self.line("imageout %d %s" % (size, rest), "ok " + image)
        self.line("imageout %d %s" % (size - 1, rest), "no 27 %d" % size)
        self.line("imagein %d %s" % (len(code), image), "ok " + rest)

    def session(self, start, looks, ending, writes, whole, over, steps):
        """One session line: resume to the end, look at cells; looks are (cell, word expected)."""
        cells, depth, code = self.figures_of()
        calls = (["r%d" % steps, "p"] if steps else []) + ["r%d" % ENOUGH] + ["l%d" % cell for cell, _ in looks]
        request = "session %d %d %d %s %s %s" % (
            cells, depth, depth, store_text(start, over), ";".join(calls) or "-", R.show_code(code))
        got = R.answer(request)
        if got.startswith("no"):
            self.differ("session", "a run", got)
            return
        answers, _, store = got.partition(" # ")
        answers = answers.split("|")
        last = len(calls) - len(looks) - 1
        state = answers[last].split(" ")
        if ending is not None and state[5] != str(ending):
            self.differ("ending", ending, state[5])
            state[5] = str(ending)
        if writes is not None and state[4] != str(writes):
            self.differ("writes", writes, state[4])
            state[4] = str(writes)
        answers[last] = " ".join(state)
        for index, (cell, word) in enumerate(looks):
            answer = "w %d" % word
            if answers[last + 1 + index] != answer:
                self.differ("cell %d" % cell, word, answers[last + 1 + index])
                answers[last + 1 + index] = answer
        if whole is not None and store != store_text(whole, over):
            self.differ("store", store_text(whole, over), store)
            store = store_text(whole, over)
        self.line(request, "|".join(answers) + " # " + store)

    def run(self, rest):
        states, _, tail = rest.partition(" ending ")
        start, _, end = states.partition("=")
        start, end = words(start), words(end)
        ending, writes = [int(n) for n in tail.split(" writes ")]
        cells = self.figures_of()[0]
        if len(start) != cells or len(end) != cells:
            self.differ("cells", (len(start), len(end)), cells)
        self.session(start, list(enumerate(end)), ending, writes, end, "words", None)

    def named(self, text):
        """`NAME=1,2 NAME(3)=4` as pairs of cell and word."""
        layout = self.compiled().layout
        pairs = []
        for part in text.split():
            name, _, values = part.partition("=")
            name, _, index = name.partition("(")
            cell = layout[name] + int(index.rstrip(")") or 0)
            pairs += [(cell + k, word) for k, word in enumerate(words(values))]
        return pairs

    def find(self, rest):
        over, steps, ending, writes, names = "words", None, None, None, []
        parts = rest.split()
        while parts:
            part = parts.pop(0)
            if part == "over":
                over = parts.pop(0)
            elif part == "steps":
                steps = int(parts.pop(0))
            elif part == "ending":
                ending = int(parts.pop(0))
            elif part == "writes":
                writes = int(parts.pop(0))
            else:
                names.append(part)
        start = [0] * self.figures_of()[0]
        for cell, word in self.named(self.starting):
            start[cell] = word
        self.session(start, self.named(" ".join(names)), ending, writes, None, over, steps)

    def copied(self, text):
        request, _, answer = text.partition(" -> ")
        got = R.answer(request)
        if got != answer:
            self.differ("answer", answer, got)
        self.line(request, answer)

    def take_source(self, lines, kind):
        pieces = []
        while lines and "|" in lines[0] and not lines[0].startswith("#"):
            times, _, text = lines.pop(0).partition("|")
            self.number += 1
            if times == "x":
                pieces.append(bytes.fromhex(text))
            elif times == "":
                pieces.append(text.encode("latin-1"))
            else:
                pieces.append("".join(text.replace("#", str(k)) for k in range(int(times))).encode("latin-1"))
        self.source = (b"\n" if kind == "source" else b"").join(pieces)

    def make(self):
        lines = open(os.path.join(TOP, self.path), encoding="latin-1").read().split("\n")
        if lines[-1] == "":
            lines.pop()
        while lines:
            line = lines.pop(0)
            self.number += 1
            while line.endswith("\\") and lines:
                line = line[:-1] + lines.pop(0)
                self.number += 1
            word, _, rest = line.partition(" ")
            table = TABLE
            if word == "table":
                number, rest = rest.split(" ", 1)
                table = int(number)
                word, _, rest = rest.partition(" ")
            if line == "" or line.startswith("#"):
                self.out.append(line)
            elif word in ("source", "pieces"):
                self.take_source(lines, word)
            elif word == "file":
                self.source = open(os.path.join(TOP, rest), "rb").read()
            elif word in ("figures", "refused", "code"):
                self.compile(table, word, rest)
            elif word in ("image", "imaged"):
                self.image(rest)
            elif word == "run":
                self.run(rest)
            elif word == "start":
                self.starting = rest
            elif word == "find":
                self.find(rest)
            elif " -> " in line:
                self.copied(line)
            else:
                raise SystemExit("%s:%d: what is this? %s" % (self.path, self.number, line))
        return "\n".join(self.out) + "\n"


def make(names):
    tables = os.path.join("tools", "tables")
    if not names:
        names = sorted(name[:-4] for name in os.listdir(os.path.join(TOP, tables)) if name.endswith(".txt"))
    bad = 0
    for name in names:
        maker = Maker(os.path.join(tables, name + ".txt"))
        text = maker.make()
        path = os.path.join("crates", "spl", "data", name + ".vectors")
        with open(os.path.join(TOP, path), "w", encoding="latin-1", newline="\n") as file:
            file.write(text)
        count = sum(1 for line in maker.out if line and not line.startswith("#"))
        print("%s: %d lines, %d bytes, %d differences" % (path, count, len(text), maker.differences))
        bad += maker.differences
    return 1 if bad else 0


def same_copies():
    """The stored run has no files but those of data/, so a routine that it runs stands there too."""
    bad = 0
    for path in sorted(glob.glob(os.path.join(TOP, "examples", "*.spl"))):
        copy = os.path.join(TOP, "crates", "spl", "data", os.path.basename(path))
        if os.path.exists(copy) and open(path, "rb").read() != open(copy, "rb").read():
            bad += 1
            print("%s differs from %s" % (copy, path))
    return bad


def check(paths):
    bad = same_copies()
    for path in paths:
        count = wrong = foreign = 0
        for line in open(path, encoding="latin-1"):
            line = line.rstrip("\n")
            if line == "" or line.startswith("#"):
                continue
            request, _, answer = line.partition(" -> ")
            if request.split(" ")[0] not in R.REQUESTS:
                foreign += 1
                continue
            count += 1
            got = R.answer(request)
            if got != answer:
                wrong += 1
                print("%s\n  but was answered %s" % (line[:300], got[:300]))
        print("%s: %d requests, %d differences%s" % (
            path, count, wrong, ", %d that the reference does not know" % foreign if foreign else ""))
        bad += wrong
    return 1 if bad else 0


def figures(paths):
    for path in paths:
        source = open(path, "rb").read()
        try:
            cells, depth, code = R.compile_source(source, TABLE)
        except R.Refusal as refusal:
            print("%s: refused %d at %d" % (path, refusal.number, refusal.place))
            continue
        image = R.image_out(1 << 18, cells, depth, code)
        print("%s: %d bytes of source, %d cells, depth %d, %d instructions, %d bytes of image" % (
            path, len(source), cells, depth, len(code), len(image)))
        print("  " + ", ".join("%s %d" % entry for entry in R.Source(source).layout.items()))
    return 0


def main():
    command, rest = (sys.argv[1:2] or [""])[0], sys.argv[2:]
    if command == "make":
        return make(rest)
    if command == "check" and rest:
        return check(rest)
    if command == "figures" and rest:
        return figures(rest)
    if command == "hex" and len(rest) == 1:
        print(hexed(open(rest[0], "rb").read()))
        return 0
    if command == "text" and len(rest) == 1:
        sys.stdout.buffer.write(R.read_hex(rest[0]) + b"\n")
        return 0
    print(__doc__)
    return 2


if __name__ == "__main__":
    sys.exit(main())
