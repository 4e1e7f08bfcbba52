(declare-const x String)
(assert (= (str.++ x x) "aa"))
(check-sat)
