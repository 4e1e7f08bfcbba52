; as a word processor writes them
(set-option :print-success false)
(declare-const answer String)
(assert (= answer “yes”))
(check-sat)
