(declare-const x String)
(check-sat)
(check-sat)
