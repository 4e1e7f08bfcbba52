; annotations that say nothing of the meaning
(set-option :print-success false)
(declare-const x String)
(declare-const p Bool)
(assert (! (= x "a") :named first))
(assert (! (str.prefixof "a" x)
  :named second)) ; its name is used nowhere
(assert (or (! p :pattern (x)) (! (not p) :weight 5 :named |third one|) (! p :mark)))
(assert (str.in_re (! x :source) (! re.all :named all_words)))
(assert (< (! (str.len x) :named length) 2))
(check-sat)
