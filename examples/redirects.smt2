; addresses that a server puts together: which of them does the filter for redirects let through?
(set-option :print-success false)
(set-option :produce-models true)
; the parts, as the configuration has them
(define-fun scheme () String "https://")
(define-fun host () String (str.++ "shop" "." "example"))
(define-fun home () String (str.++ scheme host "/"))
; the filter: this host or one below it, and then a path
(define-fun label () RegLan (re.+ (re.union (re.range "a" "z") (re.range "0" "9") (str.to_re "-"))))
(define-fun path () RegLan (re.* (re.++ (str.to_re "/") (re.* (re.diff re.allchar (re.union (str.to_re "/") (str.to_re "\u{5c}")))))))
(define-fun is_ours ((s String)) Bool
  (str.in_re s (re.++ (str.to_re scheme) (re.* (re.++ label (str.to_re "."))) (str.to_re host) path)))
; the addresses of the configuration are words, so each is let through or not
(assert (is_ours home))
(assert (is_ours (str.++ home "cart/" "42")))
(assert (not (is_ours (str.++ "http://" host "/"))))
(assert (not (is_ours (str.++ scheme host ".evil" "/"))))
(check-sat)
; an address that a user gives: the filter lets some through that are no page of the shop
(declare-const given String)
(assert (is_ours given))
(assert (distinct given home (str.++ home "cart")))
(push 1)
(assert (not (str.in_re given (re.++ (str.to_re home) re.all))))
(check-sat)
(get-value (given))
(pop 1)
; none of them begins with another scheme
(push 1)
(assert (not (str.in_re given (re.++ (str.to_re scheme) re.all))))
(check-sat)
(pop 1)
