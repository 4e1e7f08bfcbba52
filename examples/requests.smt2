; The filter of a file server: a request's path begins with /files/ and has no ".." in it. May a request that the
; filter lets through name a file outside? What of paths that are given letter by letter?
(set-option :print-success false)
(set-option :produce-models true)
(declare-const method String)
(declare-const path String)
(assert (= method "GET"))
(assert (str.in_re path (re.++ (str.to_re "/files/") (re.+ re.allchar))))
(assert (str.in_re path (re.comp (re.++ re.all (str.to_re "..") re.all))))

; the shortest path that is let through
(check-sat)
(get-value (method path))

; a path that goes up is not
(push)
(assert (= path "/files/../etc/passwd"))
(check-sat)
(pop)

; one with its second full stop written as an escape is the same path
(push)
(assert (= "/files/.\u{2e}/etc" path))
(check-sat)
(pop)

; one dot alone is let through
(push)
(assert (= path "/files/./a"))
(check-sat)
(get-value (path))
(pop)

; the same constant can't have two values
(assert (= "POST" method))
(check-sat)
