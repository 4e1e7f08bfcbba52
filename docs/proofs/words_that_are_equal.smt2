(assert (= (str.++ "a" "b") "ab" "ab"))
(check-sat)
