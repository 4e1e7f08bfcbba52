(set-option :print-success false)
(declare-const x String)
(assert (str.in_re x (re.++ (str.to_re "a") (re.allchar))))
(check-sat)
