; "\n" is no escape: a backslash and an n. The solver has nothing to say.
(set-option :print-success false)
(declare-const text String)
(assert (str.in_re text (re.++ re.all (str.to_re "\n"))))
(check-sat)
