(declare-const x String)
(assert (str.in_re x re.none))
(check-sat
