(declare-const x String)
(declare-const y String)
(check-sat)
