; names that symbols had before
(set-option :print-success false)
(declare-const x String)
(declare-const y String)
(assert (str.in.re x (re.++ (str.to.re "a") re.allchar re.all)))
(assert (not (seq.in.re x (re.union re.nostr (seq.to.re "ab")))))
(assert (|str.in.re|  y ; with bars
  (re.complement |re.nostr|)))
(assert (str.in_re y (re.inter re.full (as re.full (RegEx String)) (as re.all RegLan) (re.full))))
(assert (str.in_re y (re.comp (as re.empty (RegEx String)))))
(check-sat)
(assert (str.in.re y re.empty))
(check-sat)
