; a constant that stands twice in a term
(set-option :print-success false)
(declare-const x String)
(declare-const y String)
(define-fun both ((s String) (t String)) Bool (str.in_re (str.++ s t) re.all))
(assert (both x (str.++ "a" y)))
(assert (both x (str.++ "a" x)))
(check-sat)
