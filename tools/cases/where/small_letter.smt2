(set-option :print-success false)
(declare-const x string)
(assert (= x "a"))
(check-sat)
