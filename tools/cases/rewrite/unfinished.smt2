; what is no form, and a form without its end, with what stands in it
(set-option :print-success false)
(declare-const x String)
(assert (str.is_digit x)))
x
(check-sat)
(assert (str.is_digit x)
(check-sat)
