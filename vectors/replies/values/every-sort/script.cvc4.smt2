(set-logic ALL)
(set-option :produce-models true)
(declare-datatype Option (par (X) (
  (none)
  (some (val X)))))
; Tier::[free, gold]
(declare-datatype E0 (
  (E0_m0)
  (E0_m1)))
; Player
(declare-datatype E1 (
  (E1 (E1_eid String))))
(declare-datatype Decimal (
  (Decimal (decimalVal (_ BitVec 64)))))
(declare-datatype Datetime (
  (Datetime (datetimeVal (_ BitVec 64)))))
(declare-datatype Duration (
  (Duration (durationVal (_ BitVec 64)))))
; {by, coins, note}
(declare-datatype R2 (
  (R2 (R2_a0 E1) (R2_a1 (Option (_ BitVec 8))) (R2_a2 String))))
(declare-const b Bool)
(declare-const s String)
(declare-const v (_ BitVec 8))
(declare-const w (_ BitVec 7))
(declare-const d Decimal)
(declare-const t Datetime)
(declare-const u Duration)
(declare-const o (Option (_ BitVec 8)))
(declare-const p (Option Bool))
(declare-const e E0)
(declare-const g E1)
(declare-const r R2)
(assert (not b))
(assert (= s "Zo\u{eb} ""x"" \u{5c}"))
(assert (= v #xa5))
(assert (= w #b1000001))
(assert (= d (Decimal #xffffffffffffffff)))
(assert (= t (Datetime #x8000000000000000)))
(assert (= u (Duration #x000000000036ee80)))
(assert (= o (as none (Option (_ BitVec 8)))))
(assert (= p (some b)))
(assert (= e E0_m1))
(assert (= g (E1 "ann")))
(assert (= r (R2 g (some #x07) "")))
(check-sat)
(get-value (b s v w d t u o p e g r))
