(set-option :print-success false)
(set-option :produce-models true)
(declare-const password String)
; eight to twelve printable characters
(assert (str.in_re password ((_ re.loop 8 12) (re.range "!" "~"))))
; among them a small letter, a capital, a digit and one more sign
(assert (str.in_re password (re.inter
    (re.++ re.all (re.range "a" "z") re.all)
    (re.++ re.all (re.range "A" "Z") re.all)
    (re.++ re.all (re.range "0" "9") re.all)
    (re.++ re.all (re.diff re.allchar (re.range "a" "z") (re.range "A" "Z") (re.range "0" "9")) re.all))))
; no name that everybody tries, and no two signs side by side
(assert (str.in_re password (re.comp (re.++ re.all (re.union (str.to_re "admin") (str.to_re "root")) re.all))))
(assert (str.in_re password (re.comp (re.++ re.all ((_ re.^ 2) (re.range "!" "/")) re.all))))
(check-sat)
(get-value (password))
; letters by threes with a sign between them have room for no digit
(assert (str.in_re password (re.++ ((_ re.^ 3) (re.union (re.range "a" "z") (re.range "A" "Z")))
    ((_ re.loop 1 3) (re.++ (re.range "!" "/") ((_ re.^ 3) (re.union (re.range "a" "z") (re.range "A" "Z"))))))))
(check-sat)
