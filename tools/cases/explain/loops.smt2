; counting: powers and loops
(set-option :print-success false)
(declare-const x String)
(assert (str.in_re x ((_ re.^ 3) (re.union (str.to_re "ab") (str.to_re "c")))))
(assert (str.in_re x (re.++ ((_ re.loop 1 2) (re.range "a" "c")) ((_ re.loop 0 1) (re.* (str.to_re "d"))))))
(check-sat)
