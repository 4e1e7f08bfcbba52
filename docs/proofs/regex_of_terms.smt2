(declare-const x String)
(assert (str.in_re x (re.++ (str.to_re "ab") re.all)))
(assert (str.in_re x (re.opt (re.diff ((_ re.^ 2) re.allchar) (re.range "a" "c")))))
(check-sat)
