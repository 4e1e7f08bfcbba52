(set-option :print-success false)
(set-option :produce-models true)
(declare-const text String)
; what a field may hold: small letters, digits and blanks, and at the end a sign or none
(assert (str.in_re text (re.++ (re.+ (re.union (re.range "a" "z") (re.range "0" "9") (str.to_re " "))) (re.opt (re.range "!" "/")))))
; no blank in front, and no two of them side by side
(assert (str.in_re text (re.comp (re.union (re.++ (str.to_re " ") re.all) (re.++ re.all (str.to_re "  ") re.all)))))
; a word, a blank and a number, but neither the user's own name nor a year
(assert (str.in_re text (re.diff
    (re.++ (re.+ (re.range "a" "z")) (str.to_re " ") (re.+ (re.range "0" "9")) re.all)
    (re.++ (str.to_re "ann ") re.all)
    (re.++ re.all (re.union (str.to_re "19") (str.to_re "20")) re.allchar re.allchar re.all))))
(push)
; three letters that begin as the name does, and a number that begins as a year does
(assert (str.in_re text (re.inter
    (re.++ (str.to_re "an") (re.diff re.allchar (str.to_re " ")) re.all)
    (re.++ (re.comp (re.++ re.all (re.range "0" "9") re.all)) (str.to_re "19") re.all))))
(check-sat)
(get-value (text))
(pop)
; at the end four digits that are a year
(assert (str.in_re text (re.++ re.all (str.to_re "20") (re.range "0" "9") (re.range "0" "9"))))
(check-sat)
