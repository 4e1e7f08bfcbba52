(set-option :print-success false)
(declare-const word String)
(assert (str.in_re word
  (re.++ (str.to_re "x")
         (re.* "ab"))))
(check-sat)
