(declare-const x String)
(assert (str.in_re x (str.to_re "a")))
(assert (not (str.in_re x (re.range "a" "b"))))
(check-sat)
