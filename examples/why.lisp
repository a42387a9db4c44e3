;; Queries that other Lisps get wrong or die of (docs/beside.md). Behind each query stands what it is answered by.
(subtypep nil '(or (cons bit) (cons (not symbol) bit) (cons keyword)))  ; => T
(subtypep '(and ratio (rational 0)) '(rational (0)))                    ; => T
(subtypep 'integer '(or (integer (0) (0)) (integer * 0)))               ; => NIL
