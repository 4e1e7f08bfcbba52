; no word is of a alone and of one or more b
(set-option :print-success false)
(set-logic QF_SLIA)
(declare-const x String)
(assert (str.in_re x (re.* (str.to_re "a"))))
(assert (str.in_re x (re.+ (str.to_re "b"))))
(check-sat)
