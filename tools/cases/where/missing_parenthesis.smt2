; user names: a letter, then letters and digits
(set-option :print-success false)
(set-option :produce-models true)
(declare-const user String)
(assert (str.in_re user
  (re.++ (re.range "a" "z")
         (re.* (re.union (re.range "a" "z") (re.range "0" "9")))))
(assert (not (= user "root")))
(check-sat)
(get-value (user))
