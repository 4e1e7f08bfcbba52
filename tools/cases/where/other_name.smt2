(set-option :print-success false)
(declare-const x String)
(assert (str.in_re x (re.complement (str.to_re "a"))))
(check-sat)
