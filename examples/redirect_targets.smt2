; a page may send its visitors on to URLs of the shop alone: what does a filter by prefix and suffix let through?
(set-option :print-success false)
(set-option :produce-models true)
(declare-const scheme String)
(declare-const host String)
(declare-const path String)
(define-fun label () RegLan (re.+ (re.union (re.range "a" "z") (re.range "0" "9") (str.to_re "-"))))
(assert (str.in_re scheme (re.+ (re.range "a" "z"))))
(assert (str.in_re host (re.++ label (re.* (re.++ (str.to_re ".") label)))))
(define-fun url () String (str.++ scheme "://" host "/" path))
; the filter: how the URL begins, how its host ends, and no way back up in its path
(assert (str.prefixof "https://" url))
(assert (not (str.contains path "..")))
; the shop's hosts are shop.example and those below it
(define-fun of_shop () Bool (or (= host "shop.example") (str.suffixof ".shop.example" host)))
; a suffix without its dot lets a host of somebody else through
(push 1)
(assert (str.suffixof "shop.example" host))
(assert (not of_shop))
(check-sat)
(get-value (scheme host path))
(pop 1)
; with the dot in front, or as the whole host, nobody else's gets through
(push 1)
(assert (or (str.suffixof ".shop.example" host) (str.prefixof "https://shop.example/" url)))
(assert (not of_shop))
(check-sat)
(pop 1)
; and the scheme is the one that is asked for
(assert (not (= scheme "https")))
(check-sat)
