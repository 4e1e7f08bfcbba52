(declare-const p Bool)
(check-sat)
