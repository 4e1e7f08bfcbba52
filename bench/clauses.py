"""Runs `solve_clauses search`, and minisat where it is installed, as it is and without simplifying first, over families of
clauses, and prints a table: processor seconds with the reading, and how many times those of the second minisat that is; the
conflicts, the microseconds for each of ours and of the second minisat's, and how many literals that one propagates in a
second; peak memory in MB; the answer. A run has 60 seconds."""
import os
import re
import resource
import shutil
import subprocess
import sys
import tempfile

LIMIT = 60
ROWS = [("threes", size, seed) for size in (120, 140, 160, 180, 200) for seed in (1, 2, 3)] + [
    ("pigeons", 6, 7), ("pigeons", 7, 7), ("pigeons", 8, 7),
    ("chain", 100000, 7), ("chain", 1000000, 7),
    ("free", 100000, 7), ("free", 1000000, 7),
    ("binary", 200000, 7), ("binary", 1000000, 7),
]
here = os.path.dirname(os.path.abspath(__file__))
solver = [os.path.join(here, "..", "crates", "solve_clauses", "out", "solve_clauses"), "search"]
minisat = shutil.which("minisat")


def run(command, path):
    """The processor seconds, the peak memory in MB, and what was printed; None for the seconds where they ran out."""
    with open(path, "rb") as clauses:
        started = subprocess.Popen(command, stdin=clauses, stdout=subprocess.PIPE, stderr=subprocess.DEVNULL,
                                   preexec_fn=lambda: resource.setrlimit(resource.RLIMIT_CPU, (LIMIT, LIMIT + 1)))
        text = started.stdout.read().decode()
        _, _, used = os.wait4(started.pid, 0)
    seconds = used.ru_utime + used.ru_stime
    return (seconds if "SATISFIABLE" in text else None), used.ru_maxrss / 1000, text


def number(pattern, text):
    """The number behind a word of what was printed, 0 where it is not there."""
    found = re.search(pattern + r" *: (\d+)", text)
    return int(found[1]) if found else 0


def shown(value, form):
    return "-" if not value else format(value, form)


def over(one, other):
    return one / other if one and other else None


def row(family, size, seed):
    """One line of the table."""
    with tempfile.NamedTemporaryFile(suffix=".cnf") as file:
        subprocess.run([sys.executable, os.path.join(here, "cnf.py"), family, str(size), str(seed)], stdout=file, check=True)
        file.flush()
        ours, memory, text = run(solver, file.name)
        none = (None, 0, "")
        whole, _, whole_text = run([minisat], file.name) if minisat else none
        plain, plain_memory, plain_text = run([minisat, "-no-pre"], file.name) if minisat else none
    word, conflicts = text.split() if ours is not None else ("none", 0)
    met = number("conflicts", plain_text)
    print(f"{family:<9}{size:>8}{seed:>5}" + "".join(f"{shown(one, '.3f'):>9}" for one in (ours, whole, plain))
          + f"{shown(over(ours, plain), '.2f'):>7}{conflicts:>8}{number('conflicts', whole_text):>8}{met:>8}"
          + f"{shown(over(ours, int(conflicts)) and ours / int(conflicts) * 1e6, '.1f'):>9}"
          + f"{shown(over(plain, met) and plain / met * 1e6, '.1f'):>9}"
          + f"{shown(over(number('propagations', plain_text), plain), '.0f'):>10}{memory:>6.0f}{plain_memory:>6.0f}  {word}", flush=True)
    for other in (whole_text, plain_text):
        if ours is not None and "SATISFIABLE" in other and (word == "SATISFIABLE") == ("UNSATISFIABLE" in other):
            sys.exit("the answers differ")


if not minisat:
    print("minisat is not installed")
print(f"{'family':<9}{'size':>8}{'seed':>5}{'ours s':>9}{'minisat':>9}{'-no-pre':>9}{'times':>7}{'conflicts':>8}{'':>7}{'':>8}"
      f"{'us each':>9}{'-no-pre':>9}{'a second':>10}{'MB':>6}{'':>6}  answer")
for one in ROWS:
    row(*one)
