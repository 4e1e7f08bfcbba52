"""Runs a program over standard input, and prints a row: processor seconds, megabytes a second, peak memory in KB."""
import os
import resource
import subprocess
import sys

name, script, how, *program = sys.argv[1:]
done = subprocess.run(program, stdin=0, stdout=subprocess.PIPE)
used = resource.getrusage(resource.RUSAGE_CHILDREN)
seconds = used.ru_utime + used.ru_stime
if done.returncode != 0 or not done.stdout.endswith(b"\n"):
    sys.exit(f"{name}: status {done.returncode}, answers {done.stdout[:200]!r}")
size = os.path.getsize(script)
print(f"{name:<14} {size:>10} {how:>12} {seconds:>10.3f} {size / seconds / 1e6:>10.1f} {used.ru_maxrss:>10}")
