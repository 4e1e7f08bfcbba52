; constants on both sides of an equality
(set-option :print-success false)
(declare-const x String)
(declare-const y String)
(define-fun both ((s String) (t String)) Bool (str.in_re (str.++ s t) re.all))
(assert (both x (str.++ "a" y)))
(assert (= (str.++ x "a") y))
(check-sat)
