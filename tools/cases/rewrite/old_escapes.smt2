; the same where old names are used: it was another text then
(set-option :print-success false)
(declare-const x String)
(assert (str.in.re x (str.to.re "\x41\n")))
(assert (<= (str.len x) 6))
(check-sat)
