(set-option :print-success false)
(declare-const word String)
(assert (= word (re.++ (str.to_re "a") re.all)))
(check-sat)
