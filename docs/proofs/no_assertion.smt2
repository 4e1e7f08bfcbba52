(declare-const x String)
(assert (= (str.rev x) "a"))
(assert (and zz (= (str.len x) 2)))
(check-sat)
