"""Single faults in the plain C ledger: each of them must be seen by the tests.

usage: faults.py ARCHIVE FOLDER     from the root of the repository; what is built goes into the folder

The last line is 'N passed, M failed'.
"""
import glob
import os
import re
import signal
import subprocess
import sys

archive, folder = sys.argv[1:]
compiler = ["gcc", "-std=c99", "-O0", "-Iinclude"]
as_library = ["-Dcrz_%s=plain_%s" % (entry, entry) for entry in ("call", "fresh", "table", "shortfalls")]
programs = {
    "longrun": (sorted(glob.glob("tests/longrun*.c")) + ["tests/lent.c"], []),
    "buffers": (["tests/buffers.c", "tests/lent.c"], as_library),
    "cuts": (["tests/cuts.c"], as_library),
    "damage": (["tests/damage.c"], []),
    "shortfalls": (sorted(glob.glob("tests/shortfalls*.c")) + ["tests/lent.c"], as_library),
    "tables": (["tests/tables.c", "tests/lent.c"], as_library),
}


def faults_in(text):
    """(words, program, old, new) of each fault and program that must see it; the first part of the text is a remark."""
    for block in text.strip().split("\n\n")[1:]:
        found = re.fullmatch(r"# (.*)\n(?:by: (.*)\n)?old: (.*)\nnew: (.*)", block)
        if not found:
            sys.exit("not a fault:\n" + block)
        words, by, old, new = found.groups()
        yield from ((words, program, old, new) for program in (by or "longrun").split())


def objects_of(program):
    """The program's own files, built once; the ledger is linked to them later."""
    files, flags = programs[program]
    built = []
    for path in files:
        built.append(os.path.join(folder, "%s_%s.o" % (program, os.path.basename(path)[:-2])))
        subprocess.run(compiler + flags + ["-c", "-o", built[-1], path], check=True)
    return built


def run(program, objects, ledger):
    """Ends and last lines of the program with this ledger beside it, or in the library's place."""
    source, binary = os.path.join(folder, "faulty.c"), os.path.join(folder, "faulty")
    with open(source, "w", encoding="utf-8") as f:
        f.write(ledger.replace("../include/", ""))
    subprocess.run(compiler + ["-w", "-o", binary, source] + objects + [archive], check=True)
    ran = subprocess.run([binary, "first"], stdout=subprocess.PIPE, timeout=60, check=False)
    return ran.returncode, ran.stdout.decode()


def seen(program, status, said):
    """By a difference in the program's own words, by one of its tests, or by a wall."""
    if program in ("buffers", "shortfalls", "tables") and status == -signal.SIGSEGV:
        return "seen by %s, at a wall" % program
    if program in ("cuts", "damage", "shortfalls", "tables"):
        test = re.search(r"^failed: (.*)", said, re.M)
        return "seen by %s: %s" % (program, test.group(1)) if test and status == 1 else None
    if program == "buffers":
        return None
    call = re.search(r"^seed \w+, call (\d+): library", said, re.M)
    return "seen at call " + call.group(1) if call and status == 1 and said.endswith("0 passed, 1 failed\n") else None


def verdict(words, where):
    print("%s: %s" % (words, where or "NOT SEEN, or 'old' does not stand there once"))
    return bool(where)


def main():
    with open("bench/plain.c", encoding="utf-8") as f:
        plain = f.read()
    with open("tests/faults.txt", encoding="utf-8") as f:
        faults = list(faults_in(f.read()))
    objects = {program: objects_of(program) for program in programs}
    verdicts = []
    for program in programs:
        status, _ = run(program, objects[program], plain)
        verdicts.append(verdict("no fault, " + program, "nothing seen" if status == 0 else None))
    for words, program, old, new in faults:
        once = plain.count(old) == 1
        where = seen(program, *run(program, objects[program], plain.replace(old, new))) if once else None
        verdicts.append(verdict(words, where))
    passed = sum(verdicts)
    print("%d passed, %d failed" % (passed, len(verdicts) - passed))
    return 0 if faults and all(verdicts) else 1


if __name__ == "__main__":
    sys.exit(main())
