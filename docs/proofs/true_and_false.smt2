(assert true)
(check-sat)
(assert (not true))
(check-sat)
