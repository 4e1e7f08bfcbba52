# Turns what tools emit for scripts over strings into what strsolve reads; each command keeps its one answer.
#
#     LC_ALL=C sed -u -E -f filter.sed < script.smt2 | strsolve        (GNU sed)
#
# - Old names of the theory become those of SMT-LIB 2.6.
# - `(! t :named a)` that stands on one line becomes `t`; `a` then names nothing.
# - The options below become `set-info`, which strsolve answers by success and does not keep.
# - The logic ALL_SUPPORTED becomes ALL.
# - Nothing is read behind a line that begins with `(exit)`, so a client that waits for the end gets it.

# A text or a name between bars that does not end on its line goes on in the next one.
:whole
/^([^"|;]|"[^"]*"|\|[^|]*\||;[^\n]*\n)*(;[^\n]*)?$/!{
    $!{
        N
        b whole
    }
    b
}

/^[ \t]*\(exit[ \t]*\)/q
/[\x01-\x04]/b

# These words within a text, a name between bars or a comment are broken up for a while.
:mask
s/^(([^"|;]|"[^"]*"|\|[^|]*\||;[^\n]*\n)*("[^"]*|\|[^|]*|;[^\n]*))([(:.-])(!|na|re|no|co|st|in|op|lo)/\1\4\x04\5/
t mask

:names
s/(^|[ \t\n(])str\.(in|to)\.re([ \t\n()"|;]|$)/\1str.\2_re\3/g
s/(^|[ \t\n(])re\.nostr([ \t\n()"|;]|$)/\1re.none\2/g
s/(^|[ \t\n(])re\.complement([ \t\n()"|;]|$)/\1re.comp\2/g
s/(^|[ \t\n(])str\.to\.int([ \t\n()"|;]|$)/\1str.to_int\2/g
s/(^|[ \t\n(])int\.to\.str([ \t\n()"|;]|$)/\1str.from_int\2/g
t names

s/\(!([ \t\n("|])/\x01\1/g
s/[ \t\n]*:named([ \t\n|])/\x02\1/g
:annotations
s/\x01[ \t\n]*(([^\x01\x02":|]|"[^"]*"|\|[^|]*\|)*)\x02[ \t\n]*([^] \t\n()";:|]+|\|[^|]*\|)[ \t\n]*\)/\x03\1\x03/g
t annotations
s/([ \t\n(])\x03+/\1/g
s/\x03+([ \t\n()])/\1/g
s/\x03+/ /g
s/\x01/(!/g
s/\x02/ :named/g

s/\(set-option([ \t]+:produce-(unsat-cores|proofs|assertions|assignments)[ \t])/(set-info\1/g
s/\(set-option([ \t]+:(interactive-mode|random-seed|verbosity|timeout|incremental|strings-exp)[ \t])/(set-info\1/g
s/\(set-option([ \t]+:(auto_config|smtlib2_compliant|(pp|model|smt)\.[a-z_.]+)[ \t])/(set-info\1/g
s/\(set-option([ \t]+:diagnostic-output-channel[ \t]+"std(out|err)"[ \t]*\))/(set-info\1/g
s/\(set-logic[ \t]+ALL_SUPPORTED[ \t]*\)/(set-logic ALL)/g
s/\x04//g
