;; Built-in names, members, and what is refused. Behind each query stands what it is answered by.
(subtypep '(rational (0) (1)) 'ratio)                             ; => T
(subtypep '(unsigned-byte 64) '(integer 0 18446744073709551615))  ; => T
(subtypep '(and real (not rational)) 'float)                      ; => T
(subtypep '(member a b |c d|) '(member a b))                      ; => NIL
(subtypep 'character '(or base-char extended-char))               ; => T
(subtypep '(eql #\U+00E9) 'base-char)                             ; => NIL
#-ansi-cl (subtypep 'left-out t)
(progn
  (subtypep 'keyword 'symbol)                                     ; => T
  (subtypep '(or symbol (float * *)) '(not number)))              ; => NIL
(subtypep '(or integer *) t)                                      ; => REFUSED STAR-NOT-ALLOWED
(subtypep '(float 0.0 1.0) 'float)                                ; => REFUSED FLOAT-RANGE
(subtypep '(integer 0 18446744073709551617) t)                    ; => REFUSED NUMBER-TOO-WIDE
(subtypep '(vector (member 1 2)) '(array (unsigned-byte 7) 1))    ; => T
(subtypep '(and integer (satisfies evenp)) 'integer)              ; => T
(subtypep 'bit '(satisfies evenp))                                ; => UNSURE
