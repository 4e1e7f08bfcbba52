(set-option :print-success false)
(declare-const letter String)
(assert (str.in_re letter
  (re.union (re.range "a" "z")
            (re.range "à" "ÿ"))))
(check-sat)
