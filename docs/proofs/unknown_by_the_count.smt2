(declare-const x String)
(assert (str.in_re x (re.* (str.to_re "a"))))
(assert (str.in_re x (re.+ (str.to_re "b"))))
(check-sat)
