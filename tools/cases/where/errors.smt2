; each text of the errors that docs/PROFILE.md has, but for two that have scripts of their own
(set-option :print-success false)
)
(assert #y12)
(echo "a tab	stays, but a control character: ")
(check-sat 1)
(set-logic ALL)
(set-logic
  QF_S)
(set-option :global-declarations true)
(set-option :produce-models
  on)
(push 70000)
(declare-const x String)
(define-fun f ((y String)
               (x String)
               (y Bool)) Bool
  true)
(declare-const
  x
  Bool)
(define-fun g ((y String)) Bool
  (and (= y "a")
       z))
(assert (not
  x))
(define-fun g ((y String)) String
  (= y "a"))
(assert (or true
  (ite true
       false)))
(assert (str.in_re x
  ((_ re.loop 1)
   re.all)))
(assert (str.in_re x
  ((_ re.^
      99999)
   re.all)))
(assert (= x
  (_ char #x30000)))
(pop)
(get-model)
(set-option :produce-models true)
(get-value (x
  y))
(get-value (x
  check-sat))
(get-model)
(get-info :reason-unknown)
(check-sat)
