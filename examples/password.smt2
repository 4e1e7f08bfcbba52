(set-option :print-success false)
(set-option :produce-models true)
(declare-const password String)
; at least twelve characters
(assert (str.in_re password (re.++
    (re.range "!" "~") (re.range "!" "~") (re.range "!" "~") (re.range "!" "~") (re.range "!" "~")
    (re.range "!" "~") (re.range "!" "~") (re.range "!" "~") (re.range "!" "~") (re.range "!" "~")
    (re.range "!" "~") (re.range "!" "~")
    (re.* (re.range "!" "~")))))
; a capital, a digit, a sign, and three small letters in a row
(assert (str.in_re password (re.++ (re.* (re.range "!" "~")) (re.range "A" "Z") (re.* (re.range "!" "~")))))
(assert (str.in_re password (re.++ (re.* (re.range "!" "~")) (re.range "0" "9") (re.* (re.range "!" "~")))))
(assert (str.in_re password (re.++ (re.* (re.range "!" "~")) (re.range "!" "/") (re.* (re.range "!" "~")))))
(assert (str.in_re password (re.++ (re.* (re.range "!" "~")) (re.range "a" "z") (re.range "a" "z")
    (re.range "a" "z") (re.* (re.range "!" "~")))))
(check-sat)
(get-value (password))
; that ends in a digit of a year
(assert (str.in_re password (re.++ (re.* (re.range "!" "~")) (re.union (str.to_re "19") (str.to_re "20"))
    (re.range "0" "9") (re.range "0" "9"))))
(check-sat)
(get-value (password))
