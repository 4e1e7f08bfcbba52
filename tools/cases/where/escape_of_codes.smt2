; "\x41" is no escape: four characters, and no A. The solver has nothing to say.
(set-option :print-success false)
(declare-const letter String)
(assert (str.in_re letter re.allchar))
(assert (= letter "\x41"))
(check-sat)
