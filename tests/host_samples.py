"""The samples of a document, made again: host_samples.py PROGRAM DOCUMENT; times and hashes may differ."""
import re
import subprocess
import sys

program, document = sys.argv[1:]


def plain(text):
    text = re.sub(r"\d{4}-\d\d-\d\dT[\d:.]+Z", "TIME", text)
    return re.sub(r"hash [0-9a-f]{16}[0-9a-f.]*", "hash HASH", text)


def samples_in(lines):
    """(command, what it prints) of each indented line that begins with '$ crz'."""
    found = []
    for line in lines:
        if line.startswith("    $ crz "):
            found.append((line[10:].rstrip("\n"), []))
        elif found and found[-1] and line.startswith("    "):
            found[-1][1].append(line[4:])
        elif found:
            found.append(None)
    return [f for f in found if f]


bad = 0
with open(document, encoding="utf-8") as f:
    samples = samples_in(f)
for command, printed in samples:
    ran = subprocess.run([program] + command.split(), stdout=subprocess.PIPE, stderr=subprocess.STDOUT, check=False)
    if plain(ran.stdout.decode()) != plain("".join(printed)):
        bad += 1
        print("crz %s prints\n%s" % (command, ran.stdout.decode()))
print("%s: %d commands made again, %d print something else" % (document, len(samples), bad))
sys.exit(1 if bad or not samples else 0)
