(set-option :print-success false)
(declare-const path String)
(assert (and
  (str.in_re path (re.++ (str.to_re "/") re.all))
  (not (= path "/"))))
)
(check-sat)
