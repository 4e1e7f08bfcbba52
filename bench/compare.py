"""Runs the program, and z3 and cvc5 where they are installed, over the families of scripts, and prints a table: processor
seconds, peak memory in MB (at least some 10 MB, which is the start of a process from here), and the ratio to the better of
the other two. Then the program with its proof written to a file: processor seconds, how many times those without a proof
that is, the proof's MB, how many of them come in a second, how many lines are counted, how many regexes it expands, and the
bytes of memory for each of them, where they are 1,000 at least. Then the checker on that script and proof: processor seconds, how many times those of the run
that wrote it that is, and peak memory in MB. A run has 20 seconds."""
import os
import re
import resource
import shutil
import subprocess
import sys
import tempfile

LIMIT = 20
# the MB of the start of a process from here
START = 10
# The lines that are counted: expansions, dead regexes, and clauses of four rules.
KIND = re.compile(rb"x |d |c (?:linear|step|empty|learn)\b")
SIZES = {
    "coprime": [30, 210, 2310, 30030, 510510],
    "dictionaries": [625, 1250, 2500, 5000, 40000],
    "ranges": [625, 1250, 2500, 5000, 40000],
    "union": [625, 1250, 2500, 5000, 40000],
    "ends": [50, 100, 200, 400, 800],
    "runs": [50, 100, 200, 400, 800],
    "powers": [625, 1250, 2500, 5000],
    "loops": [625, 1250, 2500, 5000],
    "trie": [2500, 5000, 10000, 20000],
    "letters-short": [4, 6, 8, 10, 12, 14],
    "letters": [4, 6, 8, 10, 12, 14],
    "policies": [5, 10, 20, 40],
    "unicode": [5, 10, 20, 40],
    "same-place": [4, 6, 8, 10, 12],
    "filters": list(range(1, 21)),
    "equalities": [12500, 25000, 50000, 100000],
    "access": [5, 10, 20, 40],
    "clauses-sat": [2, 4, 8, 16],
    "clauses": [2, 4, 8, 16],
    "clauses-many": [100, 1000, 10000],
    "alternatives": [5, 10, 20, 40],
    "checked-clauses": [50, 100, 200],
    "shared": [20, 200, 2000],
    "chain": [1250, 2500, 5000, 10000],
    "uses": [1250, 2500, 5000, 10000],
    "bindings": [1250, 2500, 5000, 10000],
    "parameters": [125, 250, 500, 1000],
    "blocklist": [50, 200, 800],
    "blocklist-clash": [50, 200, 800],
    "routes": [50, 200, 800],
    "routes-shadowed": [50, 200, 800],
    "factor": [250, 500, 1000],
    "blocks": [4, 16, 64],
    "links": [15, 60, 240],
    "links-clash": [5, 20, 80],
    "end-letter": [4, 8, 12],
    "fields": [4, 16, 64],
    "fields-diff": [4, 16, 64],
    "fields-fit": [4, 16, 64],
    "rings": [5, 15, 45],
    "fan": [10, 50, 200],
    "literals": [625, 2500, 10000],
    "literals-clash": [50, 100, 200],
    "trades": list(range(1, 11)),
    "injections": [1, 2],
    "checked-classes": [1250, 2500, 5000, 10000, 20000],
    "checked-constants": [1250, 2500, 5000, 10000, 20000],
    "checked-denied": [1250, 2500, 5000, 10000, 20000],
    "checked-structure": [1250, 2500, 5000, 10000, 20000],
    "checked-addresses": [1250, 2500, 5000, 10000, 20000],
    "rounds": [50, 100, 200, 400, 800],
    "levels": [25, 50, 100, 200],
    "denied-levels": [1250, 2500, 5000],
    "pairs": [250000, 500000, 1000000],
    "assumed": [250, 500, 1000, 2000],
    "assumed-rounds": [50, 100, 200, 400, 800],
    "assumed-shrunk": [125, 250, 500],
}
here = os.path.dirname(os.path.abspath(__file__))
program = os.path.join(here, "..", "crates", "strsolve", "out", "strsolve")
checker = os.path.join(here, "..", "crates", "strcheck", "out", "strcheck")
solvers = {"strsolve": [program]}
if shutil.which("z3"):
    solvers["z3"] = ["z3", "-in"]
if shutil.which("cvc5"):
    solvers["cvc5"] = ["cvc5", "--incremental", "--lang", "smt2", "-"]


def run(command, path):
    """The processor seconds, the peak memory in MB and the answers; None for the seconds where a check has none."""
    with open(path, "rb") as script:
        started = subprocess.Popen(command, stdin=script, stdout=subprocess.PIPE, stderr=subprocess.DEVNULL,
                                   preexec_fn=lambda: resource.setrlimit(resource.RLIMIT_CPU, (LIMIT, LIMIT + 1)))
        text = started.stdout.read().decode().split()
        _, status, used = os.wait4(started.pid, 0)
    answers = [line for line in text if line in ("sat", "unsat")]
    with open(path) as script:
        checks = sum(line.count("(check-sat)") + line.count("(check-sat-assuming ") for line in script)
    seconds = used.ru_utime + used.ru_stime
    return (seconds if len(answers) == checks else None), used.ru_maxrss / 1000, answers


def check(path, proof):
    """The processor seconds and the peak memory in MB of a run of the checker; None for the seconds where it refuses."""
    started = subprocess.Popen([checker, path, proof], stdout=subprocess.PIPE, stderr=subprocess.DEVNULL,
                               preexec_fn=lambda: resource.setrlimit(resource.RLIMIT_CPU, (LIMIT, LIMIT + 1)))
    accepted = started.stdout.read().endswith(b"accepted\n")
    _, _, used = os.wait4(started.pid, 0)
    return (used.ru_utime + used.ru_stime if accepted else None), used.ru_maxrss / 1000


def columns(seconds, others):
    """Processor seconds, and how many times the others they are."""
    times = format(seconds / others, ".2f") if seconds is not None and others else "-"
    return f"{'-' if seconds is None else format(seconds, '.3f'):>11}{times:>8}"


def prove(path, without):
    """The columns of a run that writes its proof, beside the seconds of one that does not, and of one that checks it."""
    with tempfile.NamedTemporaryFile(suffix=".proof") as proof:
        seconds, used, _ = run([program, "--proof", proof.name], path)
        size = os.path.getsize(proof.name) / 1e6
        with open(proof.name, "rb") as lines:
            kinds = [KIND.match(line) for line in lines]
        expanded = sum(it is not None and it.group() == b"x " for it in kinds)
        counted = sum(it is not None for it in kinds)
        checked, memory = check(path, proof.name)
    rate = format(size / seconds, ".1f") if seconds else "-"
    each = format((used - START) * 1e6 / expanded, ".0f") if expanded >= 1000 else "-"
    return columns(seconds, without) + f"{size:>9.1f}{rate:>8}{counted:>9}{expanded:>9}{each:>7}" + columns(checked, seconds) + f"{memory:>9.1f}"


families = sys.argv[1:] or list(SIZES)
print(f"{'family':<18}{'size':>7}" + "".join(f"{name:>12} s{'MB':>8}" for name in solvers) + f"{'ratio':>9}{'proof s':>11}{'times':>8}{'MB':>9}{'MB/s':>8}{'counted':>9}{'expanded':>9}{'bytes':>7}{'check s':>11}{'times':>8}{'MB':>9}  answer")
for family in families:
    for size in SIZES[family]:
        with tempfile.NamedTemporaryFile(suffix=".smt2") as script:
            subprocess.run([sys.executable, os.path.join(here, "families.py"), family, str(size)], stdout=script, check=True)
            script.flush()
            rows = {name: run(command, script.name) for name, command in solvers.items()}
            proved = prove(script.name, rows["strsolve"][0])
        # of those that did not come to the end the answers of the first checks
        found = [answers for _, _, answers in rows.values()]
        differ = any(len(set(each)) > 1 for each in zip(*[answers for answers in found if answers]))
        answers = {("sat" if "sat" in each else "unsat") if len(set(each)) < 2 else "both" for each in found if each}
        line = f"{family:<18}{size:>7}"
        for seconds, memory, answer in rows.values():
            line += f"{'-' if seconds is None else format(seconds, '.3f'):>13} {memory:>8.1f}"
        others = [rows[name][0] for name in rows if name != "strsolve" and rows[name][0] is not None]
        mine = rows["strsolve"][0]
        ratio = format(mine / min(others), ".2f") if others and mine is not None else "-"
        print(line + f"{ratio:>9}{proved}  {'/'.join(sorted(answers)) or 'none'}", flush=True)
        if differ:
            sys.exit("the answers differ")
