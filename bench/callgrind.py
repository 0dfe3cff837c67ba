"""What the functions of a run cost, in instructions, by callgrind."""
import os
import re
import subprocess
import sys

LINE = re.compile(r"^ *([\d,]+) (?:\([^)]*\))? *\S*?:(.*?)(?: \[[^]]*\])?$")
# In a profile each function has a number, and its name where it stands first.
NAMED = re.compile(r"^c?fn=(\(\d+\))(?: (.*))?$")


def profile(words, folder, data=b""):
    """Runs a program by callgrind, and gives the path of the profile."""
    source, out = os.path.join(folder, "job.json"), os.path.join(folder, "profile")
    with open(source, "wb") as file:
        file.write(data)
    with open(source, "rb") as file:
        words = ["valgrind", "--tool=callgrind", "--callgrind-out-file=" + out, *words]
        done = subprocess.run(words, stdin=file, stdout=subprocess.DEVNULL, stderr=subprocess.PIPE, text=True)
    if done.returncode:
        sys.exit("the program ended with status %d: %s" % (done.returncode, done.stderr[-500:]))
    return out


def instructions(words, folder, data=b""):
    """How many a whole run takes."""
    return annotated(profile(words, folder, data))[1]


def annotated(path, *words):
    """What the functions of a profile cost, by name, and the cost of the whole run."""
    done = subprocess.run(["callgrind_annotate", "--threshold=100", *words, path], capture_output=True, text=True, check=True)
    costs, whole = {}, 0
    for line in done.stdout.splitlines():
        if line.endswith("PROGRAM TOTALS"):
            whole = int(line.split()[0].replace(",", ""))
        elif found := LINE.match(line):
            name = re.sub(r"::<.*>$", "", found[2].strip())
            costs[name] = costs.get(name, 0) + int(found[1].replace(",", ""))
    return costs, whole


def calls(path):
    """How often the functions of a profile were called, by name. One that was inlined isn't there."""
    names, counts, called = {}, {}, None
    with open(path) as file:
        for line in file:
            if found := NAMED.match(line):
                called = names.setdefault(found[1], re.sub(r"::<.*>$", "", found[2] or ""))
            elif line.startswith("calls="):
                counts[called] = counts.get(called, 0) + int(line[len("calls="):].split()[0])
    return counts
