; a query put together from what a user gives: can it be more than one condition, and does the filter stop it?
(set-option :print-success false)
(set-option :produce-models true)
(declare-const name String)
(declare-const city String)
(define-fun query () String
  (str.++ "SELECT id FROM users WHERE name = '" name "' AND city = '" city "'"))
; text in quotes, in which a quote is doubled
(define-fun plain () RegLan (re.diff re.allchar (str.to_re "'")))
(define-fun quoted () RegLan (re.++ (str.to_re "'") (re.* (re.union plain (str.to_re "''"))) (str.to_re "'")))
; the one form that the query is meant to have
(define-fun meant () RegLan
  (re.++ (str.to_re "SELECT id FROM users WHERE name = ") quoted (str.to_re " AND city = ") quoted))
; without a filter it may have another one, and ask for everything
(push 1)
(assert (not (str.in_re query meant)))
(assert (str.in_re query (re.++ re.all (str.to_re " OR 1=1 --") re.all)))
(check-sat)
(get-value (name city))
(pop 1)
; a filter that takes each name with a quote out does not see the city
(push 1)
(assert (not (str.in_re name (re.++ re.all (str.to_re "'") re.all))))
(assert (not (str.in_re query meant)))
(check-sat)
(get-value (name city))
(pop 1)
; behind one that doubles the quotes of both, the query is as it is meant to be
(push 1)
(assert (str.in_re name (re.* (re.union plain (str.to_re "''")))))
(assert (str.in_re city (re.* (re.union plain (str.to_re "''")))))
(assert (not (str.in_re query meant)))
(check-sat)
(pop 1)
