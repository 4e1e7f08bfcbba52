(declare-const x String)
(declare-const y String)
(assert (= x y))
(check-sat)
