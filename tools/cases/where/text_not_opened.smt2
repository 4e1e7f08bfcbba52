(set-option :print-success false)
(declare-const greeting String)
(assert (not (= greeting hello")))
(check-sat)
