"""speed.py PROGRAM [STEPS]

Times `PROGRAM run` against interpreter.rs, which rustc builds here, on the sources beside this file: the best of five runs each, in
nanoseconds a step.  Both must tell the same count of writes.
"""
import os
import re
import resource
import subprocess
import sys
import tempfile

HERE = os.path.dirname(os.path.abspath(__file__))


def timed(words):
    """What the command prints, and the seconds of processor time that it took."""
    before = resource.getrusage(resource.RUSAGE_CHILDREN)
    text = subprocess.run(words, stdout=subprocess.PIPE, check=True, text=True).stdout
    after = resource.getrusage(resource.RUSAGE_CHILDREN)
    return text, after.ru_utime + after.ru_stime - before.ru_utime - before.ru_stime


def best(words):
    runs = [timed(words) for _ in range(5)]
    return runs[0][0], min(seconds for _, seconds in runs)


def writes(text):
    return re.search(r"writes (\d+)", text).group(1)


def main():
    if len(sys.argv) not in (2, 3):
        sys.exit("usage: speed.py PROGRAM [STEPS]")
    program = os.path.abspath(sys.argv[1])
    steps = sys.argv[2] if len(sys.argv) == 3 else "200000000"
    with tempfile.TemporaryDirectory() as work:
        other = os.path.join(work, "interpreter")
        source = os.path.join(HERE, "interpreter.rs")
        subprocess.run(["rustc", "-O", "-C", "target-cpu=x86-64-v2", source, "-o", other], check=True)
        for name in ("count", "mixed"):
            source = os.path.join(HERE, name + ".spl")
            image = os.path.join(work, name + ".image")
            subprocess.run([program, "compile", source, image], stdout=subprocess.DEVNULL, check=True)
            ours, a = best([program, "run", source, "--limit", steps])
            theirs, b = best([other, image, steps])
            if writes(ours) != writes(theirs):
                sys.exit(f"{name}: {writes(ours)} writes, and by the interpreter {writes(theirs)}")
            print(f"{name}: {a / int(steps) * 1e9:.2f} ns a step, the interpreter {b / int(steps) * 1e9:.2f}")


main()
