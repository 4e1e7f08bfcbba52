; is a new access policy wider than the old one?
(set-option :print-success false)
(set-option :produce-models true)
; a request: what is done, on which document, and whether by its owner
(declare-const action String)
(declare-const document String)
(declare-const owner Bool)
; documents have paths of letters
(assert (str.in_re document (re.+ (re.++ (str.to_re "/") (re.+ (re.range "a" "z"))))))
; the new policy allows it: whatever begins with read, of public documents, and all to the owner but to delete ..
(assert (or
  (and (str.in_re action (re.++ (str.to_re "read") re.all)) (str.in_re document (re.++ (str.to_re "/public") re.all)))
  (and owner (not (= action "delete")))))
; .. and denies whatever is on keys
(assert (not (str.in_re document (re.++ re.all (str.to_re "/keys") (re.opt (re.++ (str.to_re "/") re.all))))))
; the old one does not: it allows to read and to list public documents, and to the owner to read and to write
(push 1)
(assert (not (ite owner
  (or (= action "read") (= action "write"))
  (and (or (= action "read") (= action "list")) (str.in_re document (re.++ (str.to_re "/public/") re.all))))))
(check-sat)
(get-value (action document owner))
; not by those who own nothing, if documents in public folders alone were meant, and reading alone
(assert (not owner))
(assert (=> (str.in_re document (re.++ (str.to_re "/public") re.all)) (str.in_re document (re.++ (str.to_re "/public/") re.all))))
(assert (=> (str.in_re action (re.++ (str.to_re "read") re.all)) (= action "read")))
(check-sat)
(pop 1)
; what the new policy allows to others
(assert (not owner))
(check-sat)
(get-value (action document))
