(set-option :print-success false)
(declare-const line String)
(assert (str.in_re line (re.++ re.all (str.to_re "say \"hi\" now") re.all)))
(check-sat)
