(declare-const x String)
(check-sat)
(declare-const y String)
(check-sat)
