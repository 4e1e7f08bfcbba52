; a backslash that begins no escape of the standard stands for itself
(set-option :print-success false)
(declare-const x String)
(assert (str.prefixof "\x41\n" x))
(assert (<= (str.len x) 6))
(check-sat)
