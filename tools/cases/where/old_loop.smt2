(set-option :print-success false)
(declare-const zip String)
(assert (str.in_re zip
  (re.++ (re.loop (re.range "0" "9") 5 5)
         (re.opt (str.to_re "-")))))
(check-sat)
