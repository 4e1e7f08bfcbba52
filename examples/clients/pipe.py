#!/usr/bin/env python3
"""Talks to strsolve through a pipe: asks for a name of letters and digits and for a note, and prints them.

usage: examples/clients/pipe.py [PROGRAM]     by default the strsolve that tools/programs.py finds

PROGRAM is started without words. `Solver` is the client:

    with Solver("strsolve") as solver:
        solver.ask("(set-logic QF_S)")
        print(solver.ask("(check-sat)").text)
"""
import os
import re
import subprocess
import sys

TOP = os.path.dirname(os.path.dirname(os.path.dirname(os.path.abspath(__file__))))
sys.path.insert(0, os.path.join(TOP, "tools"))
sys.dont_write_bytecode = True
from forms import forms  # noqa: E402
from programs import find  # noqa: E402

ESCAPE = r"\\u(?:\{([0-2][0-9a-fA-F]{4}|[0-9a-fA-F]{1,4})\}|([0-9a-fA-F]{4}))"
PROBLEM = """
(set-option :print-success true)
(set-logic QF_S)
(set-option :produce-models true)
(declare-const name String)
(assert (str.in_re name (re.++ (re.+ (re.range "a" "z")) (re.+ (re.range "0" "9")))))
(assert (not (str.in_re name (re.++ re.all (str.to_re "0") re.all))))
(declare-const |note
of two lines| String)
"""


class Refused(Exception):
    """An answer `(error "..")`: its text."""


class Solver:
    """A session with a solver. Each form must have one answer, so `success` has to be printed."""

    def __init__(self, program):
        self.process = subprocess.Popen([program], stdin=subprocess.PIPE, stdout=subprocess.PIPE)

    def __enter__(self):
        return self

    def __exit__(self, kind, *_):
        if kind is None:
            self.ask("(exit)")
        else:
            self.process.kill()
        self.process.wait()
        self.process.communicate()

    def ask(self, form):
        """Sends one form and returns its answer, also a form, read to its end over however many lines."""
        if [it.kind for it in forms(form.encode())] != ["list"]:
            raise ValueError(f"not one form: {form!r}")
        try:
            self.process.stdin.write(form.encode() + b"\n")
            self.process.stdin.flush()
        except BrokenPipeError:
            pass
        answer, read = None, b""
        while answer is None or answer.kind in ("open", "broken"):
            line = self.process.stdout.readline()
            if not line:
                raise EOFError(f"no answer to {form!r}: the program ended with status {self.process.wait()}")
            read += line
            answer = next(forms(read), None)
        if answer.head == "error":
            raise Refused(word(answer.parts[1]))
        return answer


def word(form):
    """The word that a literal stands for."""
    text = form.text[1:-1].replace('""', '"')
    return re.sub(ESCAPE, lambda it: chr(int(it[1] or it[2], 16)), text)


def literal(text):
    """The literal that stands for a word. Its characters are those up to U+2FFFF."""
    if text and ord(max(text)) > 0x2FFFF:
        raise ValueError(f"a character of {text!r} is above U+2FFFF")
    return '"' + re.sub(r"[^ -\[\]-~]", lambda it: f"\\u{{{ord(it[0]):x}}}", text).replace('"', '""') + '"'


def show_model(solver):
    for _, name, _, _, value in (it.parts for it in solver.ask("(get-model)").parts):
        print(f"{name.name!a}: {word(value) if value.kind == 'text' else value.text!a}")


def decide(solver):
    for form in forms(PROBLEM.encode()):
        solver.ask(form.text)
    note = literal('(a "quote" for 5 €')
    solver.ask(f"(assert (str.in_re |note\nof two lines| (str.to_re {note})))")
    print(solver.ask("(check-sat)").text)
    show_model(solver)
    solver.ask("(push 1)")
    solver.ask('(assert (str.in_re name (re.range "A" "Z")))')
    print(solver.ask("(check-sat)").text)
    solver.ask("(pop 1)")
    try:
        solver.ask('(assert (= nam "root"))')
    except Refused as it:
        print(f"refused: {it}")


def main():
    words = sys.argv[1:]
    if any(it in ("-h", "--help") for it in words):
        print(__doc__.strip())
        return 0
    if len(words) > 1 or any(it.startswith("-") for it in words):
        print("pipe.py: one word is taken at most, the program: examples/clients/pipe.py [PROGRAM]", file=sys.stderr)
        return 2
    program = words[0] if words else find("strsolve")
    try:
        solver = Solver(program)
    except OSError as it:
        print(f"pipe.py: {program} can't be run: {it.strerror}", file=sys.stderr)
        return 2
    try:
        with solver:
            decide(solver)
    except EOFError as it:
        print(f"pipe.py: {it}", file=sys.stderr)
        return 1
    return 0


if __name__ == "__main__":
    sys.exit(main())
