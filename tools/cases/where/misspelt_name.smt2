; which files does the new filter let through?
(set-option :print-success false)
(declare-const filename String)
(declare-const extension String)
(assert (str.in_re filename (re.+ (re.range "a" "z"))))
(assert (or (= extension "txt")
            (and (= extention "md")
                 (= filename "readme"))))
(check-sat)
