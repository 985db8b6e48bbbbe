#!/bin/sh
# compare.sh PROGRAM [SEED] [COUNT] [KINDS]
#
# Generates requests, has them answered by `PROGRAM batch` and by the reference program, and
# compares line by line.  Two answers that both begin with `err` count as equal.  Prints the first
# differences with their requests and, last, `N lines, D differences`; the status is 1 if any differ.
if [ $# -lt 1 ] || [ $# -gt 4 ]; then
    echo "usage: compare.sh PROGRAM [SEED] [COUNT] [KINDS]" >&2
    exit 2
fi
program=$1
seed=${2:-1}
count=${3:-10000}
kinds=${4:-tokens,parse,imagein,imageout,compile,session,single}
here=$(cd "$(dirname "$0")" && pwd) || exit 2
work=$(mktemp -d) || exit 2
trap 'rm -rf "$work"' EXIT
trap 'exit 2' INT TERM

python3 "$here/generate.py" "$seed" "$count" "$kinds" > "$work/requests" || exit 2
"$program" batch < "$work/requests" > "$work/program"
status=$?
python3 "$here/reference.py" < "$work/requests" > "$work/reference" || exit 2
if [ $status -ne 0 ]; then
    echo "the program ended with status $status"
fi

python3 - "$work" "$status" <<'PY'
import itertools
import sys

SHOWN = 10
WIDTH = 700


def cut(text):
    text = text.rstrip("\n")
    if len(text) <= WIDTH:
        return text
    return text[:WIDTH] + " ... (%d characters)" % len(text)


def place(one, other):
    for index, (a, b) in enumerate(zip(one, other)):
        if a != b:
            return index
    return min(len(one), len(other))


def lines(name):
    return open(sys.argv[1] + "/" + name, encoding="latin-1", newline="\n")


count = differences = 0
for request, got, wanted in itertools.zip_longest(
        lines("requests"), lines("program"), lines("reference")):
    if request is None:
        differences += 1
        if differences <= SHOWN:
            print("an answer too many: %s" % cut(got or wanted))
        continue
    count += 1
    got = "(no answer)" if got is None else got.rstrip("\n")
    wanted = wanted.rstrip("\n")
    if got == wanted or got.startswith("err") and wanted.startswith("err"):
        continue
    differences += 1
    if differences <= SHOWN:
        print("line %d: %s" % (count, cut(request)))
        fields = request.split()
        if fields and fields[0] in ("compile", "parse", "tokens") and len(fields[-1]) % 2 == 0:
            try:
                print("  source    %s" % cut(repr(bytes.fromhex(fields[-1]))[1:]))
            except ValueError:
                pass
        print("  program   %s" % cut(got))
        print("  reference %s" % cut(wanted))
        at = place(got, wanted)
        if at > WIDTH:
            print("  at %d: program %s, reference %s" % (at, got[at:at + 40], wanted[at:at + 40]))
print("%d lines, %d differences" % (count, differences))
sys.exit(1 if differences or sys.argv[2] != "0" else 0)
PY
