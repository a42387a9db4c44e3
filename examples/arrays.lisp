;; Arrays, strings and sequences. Behind each query stands what it is answered by, and behind a NIL an object that is
;; in the first type alone.
(dimensions)
(subtypep '(array t (2 3)) '(array t (* 3)))                      ; => T
(subtypep '(array * (* 2)) '(array * (2 *)))                      ; => NIL: 3 by 2
(subtypep '(and (array * (* 2)) (array * (2 *))) '(array * (2 2))); => T
(subtypep '(array * (2 *)) '(or (array * (2 2)) (array * (2 3)))) ; => NIL: 2 by 4
(subtypep '(and (array * 2) (not (array * (2 *))))
          '(not (array * (2 3))))                                 ; => T

(ranks)
(subtypep '(array * 2) '(array * (* *)))                          ; => T
(subtypep '(array * 1) 'vector)                                   ; => T
(subtypep '(array * ()) '(array * 0))                             ; => T
(subtypep 'array '(or (array * 0) vector (array * 2)))            ; => NIL: one of rank 3

(element-types)
(subtypep '(vector bit) '(vector integer))                        ; => NIL: a bit vector
(subtypep '(vector integer) '(vector symbol))                     ; => T
(subtypep '(array (eql 1) (5)) '(bit-vector 5))                   ; => T
(subtypep '(vector (and integer symbol)) '(vector nil))           ; => T
(subtypep '(vector nil) 'simple-vector)                           ; => NIL: a vector that holds nothing
(subtypep 'vector '(or (vector t) string bit-vector))             ; => NIL: a vector of floats
(subtypep '(and vector (not (vector t))) '(not (array t)))        ; => T

(element-types-within-element-types)
(subtypep '(vector (vector bit)) '(vector t))                     ; => T
(subtypep '(vector (and (vector bit) (vector character)))
          '(vector nil))                                          ; => T
(subtypep '(vector (and (vector bit) (vector (integer 0 1))))
          '(vector nil))                                          ; => NIL: (vector bit) is no entry, so T is taken
(subtypep '(array (or bit (and (vector bit) (not bit-vector))))
          '(array bit))                                           ; => T
(subtypep '(array (and (array (array nil)) (not (array t))))
          '(array nil))                                           ; => T

(strings)
(subtypep '(string 3) '(vector * 3))                              ; => T
(subtypep 'string '(vector character))                            ; => NIL: a base string
(subtypep 'string '(or (vector character) base-string (vector nil))) ; => T
(subtypep '(vector standard-char) 'base-string)                   ; => T
(subtypep '(vector extended-char) '(vector base-char))            ; => NIL: a vector of characters

(simple-and-not)
(subtypep '(and vector (simple-array t)) 'simple-vector)          ; => T
(subtypep '(and string (not simple-string)) '(not simple-array))  ; => T
(subtypep '(array * (2)) '(simple-array * (2)))                   ; => NIL: one of two that is not simple

(sequences)
(subtypep '(and sequence (not list)) '(array * 1))                ; => T
(subtypep 'sequence '(or cons vector))                            ; => NIL: the empty list
(subtypep '(cons (bit-vector 2) (array t (2 2))) '(cons sequence (not sequence))) ; => T
