; which of ten access rules together forbid what a customer needs?
(set-option :print-success false)
(set-option :produce-models true)
(set-option :produce-unsat-assumptions true)
; a request: what is done, on which path, and whether by the staff
(declare-const method String)
(declare-const path String)
(declare-const staff Bool)
; names in paths
(define-fun name () RegLan (re.+ (re.union (re.range "a" "z") (re.range "0" "9") (str.to_re ".") (str.to_re "-"))))
; some text, with another one in it
(define-fun has ((s String) (w String)) Bool (str.in_re s (re.++ re.all (str.to_re w) re.all)))
; the rules, each behind a constant that says whether it counts
(declare-const known_methods Bool)
(assert (=> known_methods (str.in_re method (re.union (str.to_re "GET") (str.to_re "PUT") (str.to_re "DELETE")))))
(declare-const lower_case Bool)
(assert (=> lower_case (str.in_re path (re.+ (re.++ (str.to_re "/") name)))))
(declare-const forty_characters Bool)
(assert (=> forty_characters (str.in_re path ((_ re.loop 1 40) re.allchar))))
(declare-const no_parent Bool)
(assert (=> no_parent (not (has path ".."))))
(declare-const nothing_hidden Bool)
(assert (=> nothing_hidden (not (has path "/."))))
(declare-const writes_below_upload Bool)
(assert (=> writes_below_upload (or (= method "GET") (str.in_re path (re.++ (str.to_re "/upload/") re.all)))))
(declare-const three_levels Bool)
(assert (=> three_levels (str.in_re path ((_ re.loop 1 3) (re.++ (str.to_re "/") name)))))
(declare-const no_programs Bool)
(assert (=> no_programs (not (str.in_re path (re.++ re.all (re.union (str.to_re ".sh") (str.to_re ".exe")))))))
(declare-const deletes_by_staff Bool)
(assert (=> deletes_by_staff (or staff (not (= method "DELETE")))))
(declare-const keys_to_staff Bool)
(assert (=> keys_to_staff (or staff (not (has path "key")))))
; the customer puts tables into a folder of her own, one for each year
(assert (not staff))
(assert (= method "PUT"))
(assert (str.in_re path (re.++ re.all (str.to_re "/acme/2024/") (re.+ (re.range "a" "z")) (str.to_re ".csv"))))
(check-sat-assuming (known_methods lower_case forty_characters no_parent nothing_hidden writes_below_upload three_levels
  no_programs deletes_by_staff keys_to_staff))
(get-unsat-assumptions)
; without the one of them all others allow it, and without the other too
(check-sat-assuming (known_methods lower_case forty_characters no_parent nothing_hidden writes_below_upload no_programs
  deletes_by_staff keys_to_staff))
(get-value (path))
(check-sat-assuming (known_methods lower_case forty_characters no_parent nothing_hidden three_levels no_programs
  deletes_by_staff keys_to_staff))
(get-value (path))
