(declare-const x String)
(assert (= (str.++ x "a") "aa"))
(check-sat)
