; comments and lines stay
(set-option :print-success false)
(declare-const   x String)  ; a word

(assert
  (and  ; all of these
    (str.prefixof  ; how it begins
      "a"          ; with a;b "
      x)
    (or (= "x;)" x)   (str.contains x "|"))

    ;; its length
    (<= 2
        (str.len   ; of x
          x)
        ; and no more
        9)   (not	(= (str.at x
 1) "b"))
    (! (= "(" ; open
          x) ; not named
       :named no_name
       ; used nowhere
    )))
(check-sat)	(check-sat-assuming (
  ; nothing
))   ; the last
; words stay apart
(declare-const p Bool)
(assert (or(! p :mark)(! p :mark)(and(str.< x "")p(str.<= "" x)|p|)))
(assert (str.in_re x(re.union(re.full)|re.nostr||re.nostr|(! re.full :mark)(str.to.re(! "a" :mark)))))
(assert (=(! x :mark)"a"(! x :mark)))
(check-sat)
