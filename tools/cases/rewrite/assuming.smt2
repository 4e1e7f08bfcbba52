; checks under assumptions
(set-option :print-success false)
(set-option :produce-models true)
(declare-const a Bool)
(declare-const b Bool)
(declare-const x String)
(assert (=> a (str.prefixof "a" x)))
(assert (=> b (= x "b")))
(check-sat-assuming (a (not b)))
(check-sat-assuming (a b)) ; not both
(check-sat-assuming
  (a ; alone
   (! (= x "ab") :named is_ab)))
(echo "here")
(check-sat-assuming ())
(get-value (a b))
(check-sat-assuming (is_ab b))
(assert is_ab)
(check-sat)
(get-value (x))
