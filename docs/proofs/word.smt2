(assert (str.in_re (str.++ "c" "a") (re.* (str.to_re "c"))))
(check-sat)
