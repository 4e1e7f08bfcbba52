; may the password be the name?
(set-option :print-success false)
(declare-const name String)
(declare-const password String)
(assert (str.in_re name (re.+ (re.range "a" "z"))))
(assert (str.in_re password ((_ re.^ 8) re.allchar)))
(assert (= name password))
(check-sat)
