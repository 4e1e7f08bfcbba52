(declare-const p Bool)
(check-sat-assuming ((not p)))
