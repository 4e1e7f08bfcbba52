; may one of the rules of a server let a request for a key through?
(set-option :print-success false)
(set-option :produce-models true)
(declare-const path String)
; a path
(assert (str.in_re path (re.++ (str.to_re "/") (re.* (re.union (re.range "a" "z") (str.to_re "/") (str.to_re "."))))))
; one that ends in a key
(push 1)
(assert (str.in_re path (re.++ (re.* (re.range "." "z")) (str.to_re ".key"))))
; what the first rule lets through: pages
(push 1)
(assert (str.in_re path (re.++ (str.to_re "/pages/") (re.+ (re.range "a" "z")) (str.to_re ".html"))))
(check-sat)
(pop 1)
; what the second one does: all that is public
(push 1)
(assert (str.in_re path (re.++ (str.to_re "/public/") (re.+ (re.range "." "z")))))
(check-sat)
(get-value (path))
(pop 2)
; the shortest path of all
(check-sat)
(get-value (path))
