"""How long a program takes for a job, and what it writes."""
import json
import os
import subprocess
import sys

# Starts the program and says its status and its processor seconds.
PARENT = """
import os, sys
source, out = os.open(sys.argv[1], os.O_RDONLY), os.open(sys.argv[2], os.O_WRONLY | os.O_CREAT | os.O_TRUNC)
ends = [(os.POSIX_SPAWN_DUP2, source, 0), (os.POSIX_SPAWN_DUP2, out, 1)]
program = os.posix_spawnp(sys.argv[3], sys.argv[3:], os.environ, file_actions=ends)
_, status, usage = os.wait4(program, 0)
print(os.waitstatus_to_exitcode(status), usage.ru_utime + usage.ru_stime)
"""


def run(program, room, job):
    """The processor seconds of one run, and the lines of the elements after the last batch."""
    source, out = os.path.join(room, "job.json"), os.path.join(room, "text")
    with open(source, "w") as file:
        json.dump(job, file)
    done = subprocess.run([sys.executable, "-S", "-c", PARENT, source, out, *program], stdout=subprocess.PIPE, text=True)
    status, seconds = done.stdout.splitlines()[-1].split()
    if status != "0":
        sys.exit("%s ended with status %s" % (program[0], status))
    with open(out) as file:
        lines = file.read().splitlines()
    head = max(k for k, line in enumerate(lines) if line.startswith("batch "))
    return float(seconds), dict(line.split(" ", 1) for line in lines[head + 1:])


def is_right(name, lines, wanted):
    """Whether the elements that are wanted have their lines. Those that haven't are told."""
    wrong = [(x, lines.get(str(x)), line) for x, line in wanted.items() if lines.get(str(x)) != line]
    for x, line, other in wrong[:3]:
        print("%s: %d is %r in place of %r" % (name, x, line, other))
    return not wrong


def words_after(argv, name, options):
    """The words behind an option up to the next one of these, which are taken out with it."""
    if name not in argv:
        return []
    at = argv.index(name)
    end = next((k for k in range(at + 1, len(argv)) if argv[k] in options), len(argv))
    taken = argv[at + 1:end]
    del argv[at:end]
    return taken
