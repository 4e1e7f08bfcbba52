; nothing to say: what is answered may say "unsupported", and nothing is read behind (exit)
(echo "unsupported")
(echo "(error ""where"")
where")
(set-option :produce-models true)
(set-info :source "a text of
two lines")
(declare-const |a name| String) ; a comment with a " and a (
(assert (str.in_re |a name| (re.+ (re.union (str.to_re "\u{e9}") (str.to_re "say ""hi""")))))
(check-sat)
(get-value (|a name|))
(exit)
(asert (= x "a")
