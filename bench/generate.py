"""Writes a script of about so many megabytes.

`mixed`: declarations, assertions with texts, comments and quoted names, that are not answered with success.
`memberships`: constants, each with two memberships in overlapping ranges, and one check at the end.
`checks`: one constant, and checks with their models.
`definitions`: constants, each with a definition that is used of it, and one check at the end.
`form`: one form that is as long as the script.
"""
import sys

kind, size = sys.argv[1], int(sys.argv[2]) * 1_000_000
out = sys.stdout
written = number = 0


def put(text):
    global written
    out.write(text)
    written += len(text)


put("(set-option :print-success false)(set-option :produce-models true)(set-logic QF_S)\n")
if kind == "form":
    put("(set-info :source (")
    while written < size:
        put('(a |b c| "text ""quoted""" 12 #x0f :key)\n')
    put("))\n")
while written < size:
    if kind == "mixed":
        put('(declare-const |x %d| String) ; the constant %d\n' % (number, number))
        put('(set-info :note "text with ""quotes"" %d")\n' % number)
        put('(assert (str.in_re |x %d| (re.+ (re.range "a" "z"))))\n' % number)
    elif kind == "memberships":
        put('(declare-const x%d String)\n(assert (str.in_re x%d (re.+ (re.range "a" "y"))))\n'
            '(assert (str.in_re x%d (re.range "c" "z")))\n' % (number, number, number))
    elif kind == "checks":
        if number == 0:
            put('(declare-const x String)(assert (str.in_re x (re.range "a" "b")))\n')
        put('(check-sat)\n(get-model)\n')
    elif kind == "definitions":
        put('(declare-const x%d String)\n(define-fun f%d ((s String)) Bool (let ((r (re.range "a" "y"))) '
            '(str.in_re s (re.+ r))))\n(assert (f%d x%d))\n' % (number, number, number, number))
    number += 1
if kind in ("memberships", "definitions"):
    put("(check-sat)\n")
