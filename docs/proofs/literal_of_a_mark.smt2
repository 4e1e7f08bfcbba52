(declare-const p Bool)
(declare-const x String)
(assert (and p (= (str.len x) 1)))
(check-sat)
