(set-option :print-success false)
(set-option :produce-models true)
(declare-const name String)
; letters, then at least one digit
(assert (str.in_re name (re.++ (re.+ (re.range "a" "z")) (re.+ (re.range "0" "9")))))
; one of these, or any number of "ab" and a "7"
(assert (str.in_re name (re.union (str.to_re "root") (str.to_re "user1") (re.++ (re.* (str.to_re "ab")) (str.to_re "7")))))
(check-sat)
(get-model)
; and the letter "u" in front
(assert (str.in_re name (re.++ (str.to_re "u") (re.* (re.range "0" "z")))))
(check-sat)
(get-value (name))
