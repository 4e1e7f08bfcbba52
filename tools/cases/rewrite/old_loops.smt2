; repetitions with numerals as arguments, and without an upper end
(set-option :print-success false)
(set-option :produce-models true)
(declare-const x String)
(declare-const y String)
(define-fun digit () RegLan (re.range "0" "9"))
(assert (str.in_re x (re.loop digit 2 4)))
(assert (str.in_re x (re.^ 3 digit)))
(assert (str.in_re y (re.++ (re.loop (str.to_re "a") 3) (re.loop digit 1) (re.loop (str.to.re "c") 0))))
(assert (str.in_re y ((_ re.loop 5) re.allchar)))
(assert (str.in_re y (re.loop (re.loop re.allchar
  1) 2 ; at least two
  3)))
(check-sat)
(get-value (x y))
; no number is from 3 to 2
(assert (str.in_re x (re.loop re.allchar 3 2)))
(check-sat)
