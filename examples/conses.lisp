;; Conses. Behind each query stands what it is answered by.
(products-and-unions)
(subtypep '(cons (or integer symbol) (or integer symbol))
          '(or (cons integer integer) (cons integer symbol)
               (cons symbol integer) (cons symbol symbol)))       ; => T
(subtypep '(cons (member 1 2) (member 3 4))
          '(or (cons (eql 1) t) (cons t (eql 3))))                ; => NIL

(empty-parts)
(subtypep '(cons nil t) nil)                                      ; => T
(subtypep '(cons t (and integer symbol)) nil)                     ; => T

(lists)
(subtypep '(cons t (cons t t)) '(cons t list))                    ; => T
(subtypep 'list '(or null (cons t list)))                         ; => NIL
(subtypep '(or null (cons t list)) 'list)                         ; => T
(subtypep '(cons t list) '(cons t (or (eql nil) (cons (eql 1) t)))); => NIL

(complements)
(subtypep '(not (cons * *)) 'atom)                                ; => T
(subtypep '(and cons (not (cons (eql 1) t))) '(cons (not (eql 1)))); => T

(a-union-that-needs-no-object)
(subtypep nil '(or (cons bit) (cons (not symbol) bit) (cons keyword))); => T
(subtypep '(cons keyword)
          '(or (cons bit) (cons (not symbol) bit) (cons keyword)))  ; => T
(subtypep '(cons (member a 1))
          '(or (cons null) (cons (not bit) bit) (cons (member a 1)))) ; => T
(subtypep t '(or (cons null) (cons (not bit) bit) (cons (member a 1)))) ; => NIL

(places-with-too-few-numbers)
(subtypep '(cons (integer 1 2) (cons (integer 1 2) (cons (integer 1 2) null)))
          '(or (cons (eql 1) (cons (eql 1) t)) (cons (eql 2) (cons (eql 2) t))
               (cons (eql 1) (cons t (cons (eql 1) t))) (cons (eql 2) (cons t (cons (eql 2) t)))
               (cons t (cons (eql 1) (cons (eql 1) t))) (cons t (cons (eql 2) (cons (eql 2) t))))) ; => T
