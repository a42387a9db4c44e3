(an-end-that-belongs and-one-that-does-not)
(subtypep '(integer 0 10) '(integer (0) 10))                      ; => NIL
(subtypep '(integer (0) 10) '(integer 0 10))                      ; => T
(subtypep '(integer (0) (10)) '(integer 1 9))                     ; => T

(ranges-without-an-end)
(subtypep '(integer 0 *) 'integer)                                ; => T
(subtypep 'integer '(integer 0))                                  ; => NIL

(a-range-without-integers)
(subtypep '(integer 5 3) nil)                                     ; => T

(unions)
(subtypep '(integer 0 10) '(or (integer 0 5) (integer 6 10)))     ; => T
(subtypep '(integer 0 10) '(or (integer 0 4) (integer 6 10)))     ; => NIL

(intersections)
(subtypep '(and (integer 0 10) (integer 5 20)) '(integer 5 9))    ; => NIL
(subtypep '(and (integer 0 10) (not (eql 5)))
          '(or (integer 0 4) (integer 6 10)))                     ; => T

(complements)
(subtypep '(not (integer 0 10)) '(or (integer * -1) (integer 11))); => NIL
(subtypep '(and integer (not (integer 0 10)))
          '(or (integer * (0)) (integer (10))))                   ; => T

(single-integers)
(subtypep '(or (eql 1) (eql 2) (eql 3)) '(integer 1 3))           ; => T
(subtypep '(integer 1 3) '(or (eql 1) (eql 3)))                   ; => NIL
