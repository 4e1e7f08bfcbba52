; a library of filters as definitions: dates, host names and semantic versions, and which of them let the same texts through
(set-option :print-success false)
(set-option :produce-models true)
(define-fun digit () RegLan (re.range "0" "9"))
(define-fun letter () RegLan (re.union (re.range "a" "z") (re.range "A" "Z")))
(define-fun number () RegLan (re.union (str.to_re "0") (re.++ (re.range "1" "9") (re.* digit))))
; one part or more, with a text between each two
(define-fun separated ((part RegLan) (by String)) RegLan (re.++ part (re.* (re.++ (str.to_re by) part))))
; yyyy-mm-dd
(define-fun is_date ((s String)) Bool
  (let ((two ((_ re.^ 2) digit)) (dash (str.to_re "-")))
    (str.in_re s (re.++ ((_ re.^ 4) digit) dash two dash two))))
; labels of letters, digits and hyphens inside, 63 at most, with dots between them
(define-fun label () RegLan
  (let ((end (re.union letter digit)))
    (re.++ end (re.opt (re.++ ((_ re.loop 0 61) (re.union end (str.to_re "-"))) end)))))
(define-fun is_host ((s String)) Bool (str.in_re s (separated label ".")))
; three numbers, and what may stand behind - and +
(define-fun identifiers () RegLan (separated (re.+ (re.union letter digit (str.to_re "-"))) "."))
(define-fun is_version ((s String)) Bool
  (let ((dot (str.to_re ".")))
    (str.in_re s (re.++ number dot number dot number
      (re.opt (re.++ (str.to_re "-") identifiers)) (re.opt (re.++ (str.to_re "+") identifiers))))))
(declare-const s String)
; each date is let through as a host name
(push 1)
(assert (is_date s))
(assert (not (is_host s)))
(check-sat)
(pop 1)
; a version that is no host name, and the least that is one
(push 1)
(assert (is_version s))
(push 1)
(assert (not (is_host s)))
(check-sat)
(get-value (s))
(pop 1)
(assert (is_host s))
(check-sat)
(get-value (s))
(pop 1)
; no date is a version
(assert (is_date s))
(assert (is_version s))
(check-sat)
