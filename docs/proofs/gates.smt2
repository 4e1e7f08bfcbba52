(declare-const p Bool)
(declare-const q Bool)
(check-sat)
