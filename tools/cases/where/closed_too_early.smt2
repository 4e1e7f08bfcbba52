; a path is public, or an admin asks for it
(set-option :print-success false)
(declare-const path String)
(declare-const admin Bool)
(assert (or admin) (str.in_re path (re.++ (str.to_re "/public/") re.all))))
(check-sat)
