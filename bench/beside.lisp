;;;; Queries that other Lisps get wrong, leave open, take very long for or die of.
;;;; Above each stand its right answer with the reason or a witness, what the Lisps said (SBCL 2.2.9, CLISP 2.49.93+,
;;;; ECL 21.2.1, each in a fresh process with its defaults; P is a predicate that is defined there), and what the one
;;;; that is wrong says elsewhere. bench/beside.py asks them anew.

;;; Queries that a Lisp dies of

;; right T: NIL is under every type
;; SBCL dies, CLISP T, ECL unsure
;; SBCL itself: (subtypep nil '(or (cons keyword) (cons bit) (cons (not symbol) bit))) => T, T
;; SBCL itself: (typep 1 '(or (cons bit) (cons (not symbol) bit) (cons keyword))) => dies
(subtypep nil '(or (cons bit) (cons (not symbol) bit) (cons keyword)))

;; right T: B lists A itself as its third part
;; SBCL dies, CLISP T, ECL unsure
(subtypep '(cons keyword) '(or (cons bit) (cons (not symbol) bit) (cons keyword)))

;; right T: B lists A itself; no KEYWORD needed
;; SBCL dies, CLISP T, ECL unsure
(subtypep '(cons (member a 1)) '(or (cons null) (cons (not bit) bit) (cons (member a 1))))

;; right NIL: 0 is no cons, so not in B
;; SBCL dies, CLISP NIL, ECL unsure
(subtypep t '(or (cons null) (cons (not bit) bit) (cons (member a 1))))

;;; Queries that a Lisp is certain of and wrong about

;; right T: every (bit-vector 2) is a bit-vector
;; SBCL NIL, CLISP T, ECL T
;; SBCL itself: (subtypep '(bit-vector 2) 'bit-vector) => T, T
;; SBCL itself: (subtypep '(and (bit-vector 2) (not simple-bit-vector)) '(bit-vector 2)) => T, T
(subtypep '(and (bit-vector 2) (not simple-bit-vector)) 'bit-vector)

;; right T: a vector that is an (array t) is a (vector t)
;; SBCL NIL, CLISP T, ECL T
;; SBCL itself: (subtypep '(and vector (not (vector t))) 'vector) => T, T
;; SBCL itself: (subtypep '(and vector (not (vector t))) '(not (array t))) => T, T
(subtypep '(and vector (not (vector t))) '(and vector (not (array t))))

;; right T: A is under (not (array bit)) alone already
;; SBCL NIL, CLISP T, ECL T
;; SBCL itself: (subtypep '(and vector (not bit-vector)) '(not (array bit))) => T, T
(subtypep '(and vector (not bit-vector)) '(or bit-vector (not (array bit))))

;; right T: the left type is empty (neither NIL nor the symbol a is a keyword), and no keyword is a list
;; SBCL NIL, CLISP T, ECL T
;; SBCL itself: (subtypep '(and keyword (member nil a)) 'keyword) => T, T
;; SBCL itself: (subtypep 'keyword '(not list)) => T, T
;; SBCL itself: (typep nil 'keyword) => NIL
;; SBCL itself: (typep 'a 'keyword) => NIL
(subtypep '(and keyword (member nil a)) '(not list))

;; right T: an (array t (2)) is a vector with elements T
;; SBCL NIL, CLISP T, ECL T
;; SBCL itself: (subtypep '(array t (2)) '(vector t)) => T, T
;; SBCL itself: (subtypep '(and (array t (2)) (not simple-vector)) '(array t (2))) => T, T
(subtypep '(and (array t (2)) (not simple-vector)) '(vector t))

;; right T: the two types are the same by definition
;; SBCL NIL, CLISP T, ECL NIL
;; SBCL itself: (subtypep '(rational (0) 1) '(and (rational 0 1) (not (eql 0)))) => T, T
(subtypep '(and (rational 0 1) (not (eql 0))) '(rational (0) 1))

;; right T: A holds 0 alone
;; SBCL T, CLISP NIL, ECL NIL
;; CLISP itself: (subtypep '(rational 0 0) '(eql 0)) => T, T
;; CLISP itself: (subtypep '(eql 0) 'integer) => T, T
(subtypep '(rational 0 0) 'integer)

;; right T: every integer is at most 0 or at least 1
;; SBCL T, CLISP NIL, ECL T
;; CLISP itself: (subtypep 'integer '(or (integer * 0) (integer 1))) => T, T
;; CLISP itself: (subtypep '(integer * 0) '(rational * 0)) => T, T
(subtypep 'integer '(or (rational * 0) (integer 1)))

;; right T: every integer is at most 0 or above 0
;; SBCL T, CLISP NIL, ECL T
;; CLISP itself: (subtypep 'integer '(or (integer * 0) (integer (0)))) => T, T
;; CLISP itself: (subtypep '(integer (0)) '(rational (0))) => T, T
(subtypep 'integer '(or (integer * 0) (rational (0))))

;; right T: 0 is in the first part, 1 in the second
;; SBCL T, CLISP NIL, ECL T
;; CLISP itself: (subtypep '(eql 0) '(or (rational 0 0) (integer 1))) => T, T
;; CLISP itself: (subtypep '(eql 1) '(or (rational 0 0) (integer 1))) => T, T
;; CLISP itself: (subtypep 'bit '(or (eql 0) (eql 1))) => T, T
(subtypep 'bit '(or (rational 0 0) (integer 1)))

;; right NIL: (make-array '(2 2)) is in A and in (array * (2 *))
;; SBCL NIL, CLISP NIL, ECL T
;; ECL itself: (typep (make-array '(2 2)) '(array * (* 2))) => T
;; ECL itself: (typep (make-array '(2 2)) '(not (array * (2 *)))) => NIL
(subtypep '(array * (* 2)) '(not (array * (2 *))))

;; right NIL: (make-array '(2 2)); is in the left type
;; SBCL NIL, CLISP NIL, ECL T
;; ECL itself: (typep (make-array '(2 2)) '(and (array * (* 2)) (array * (2 *)))) => T
;; ECL itself: (subtypep '(array * (2 2)) '(and (array * (* 2)) (array * (2 *)))) => T, T
(subtypep '(and (array * (* 2)) (array * (2 *))) nil)

;; right NIL: 1 is in A; (integer (0) (0)) is empty and 1 > 0
;; SBCL NIL, CLISP NIL, ECL T
;; ECL itself: (typep 1 '(or (integer (0) (0)) (integer * 0))) => NIL
(subtypep 'integer '(or (integer (0) (0)) (integer * 0)))

;; right NIL: 4
;; SBCL NIL, CLISP NIL, ECL T
;; ECL itself: (typep 4 '(or (rational (3) (3)) (rational * (4)))) => NIL
(subtypep 'rational '(or (rational (3) (3)) (rational * (4))))

;; right T: A holds 0 alone
;; SBCL T, CLISP T, ECL NIL
;; ECL itself: (subtypep '(eql 0) '(rational 0 0)) => T, T
(subtypep '(rational 0 0) '(eql 0))

;; right T: 0 and 1 are in the first part, 2 in the second
;; SBCL T, CLISP NIL, ECL T
(subtypep '(integer 0 2) '(or (rational * 1) (integer 1)))

;; right T: 0, 1, 2 are in (mod 3), 3 is in the range
;; SBCL T, CLISP NIL, ECL T
(subtypep '(unsigned-byte 2) '(or (mod 3) (rational 2 4)))

;; right T: A is the integers above 0
;; SBCL T, CLISP NIL, ECL T
(subtypep '(and integer (not (rational * 0))) 'unsigned-byte)

;; right T: 0 is a bit, all else of A is below 0
;; SBCL T, CLISP NIL, ECL NIL
(subtypep '(rational * 0) '(or (rational * (0)) bit))

;; right T: 0 is no ratio, so A is empty
;; SBCL T, CLISP NIL, ECL NIL
;; CLISP itself: (typep 0 'ratio) => NIL
(subtypep '(and ratio (rational 0 0)) nil)

;; right T: the symbol a is no keyword, so the left type is empty
;; SBCL NIL, CLISP T, ECL T
;; SBCL itself: (typep 'a 'keyword) => NIL
;; SBCL itself: (subtypep '(and keyword (eql a)) nil) => NIL, NIL
(subtypep '(and keyword (eql a)) 'null)

;; right T: only the symbol a is left
;; SBCL NIL, CLISP T, ECL T
;; SBCL itself: (typep :k '(and (member a :k) (not keyword))) => NIL
(subtypep '(and (member a :k) (not keyword)) '(eql a))

;; right T: the car would be the symbol a and a keyword, so the left type is empty
;; SBCL NIL, CLISP T, ECL unsure
(subtypep '(and (cons (eql a)) (cons keyword)) '(cons t null))

;; right T: no cons with a keyword as car has the symbol a as car
;; SBCL NIL, CLISP T, ECL unsure
(subtypep '(cons keyword) '(or (cons t null) (not (cons (eql a)))))

;; right T: 0 is no ratio
;; SBCL NIL, CLISP T, ECL NIL
;; SBCL itself: (typep 0 'ratio) => NIL
;; SBCL itself: (subtypep 'ratio '(not (eql 0))) => T, T
(subtypep '(and ratio (rational 0)) '(rational (0)))

;; right T: a rational of at least 0 is 0 or above 0
;; SBCL T, CLISP T, ECL NIL
(subtypep '(rational 0) '(or (eql 0) (rational (0))))

;; right T: nothing is above and below 0
;; SBCL T, CLISP T, ECL NIL
(subtypep '(integer (0) (0)) nil)

;; right T: 0 is an integer, all else of A is above 0 and below 1
;; SBCL T, CLISP T, ECL NIL
(subtypep '(rational 0 1/2) '(or (integer * 2) (rational (0) (1))))

;; right T: 0 is a bit, all else of A is above 0
;; SBCL T, CLISP NIL, ECL T
;; CLISP itself: (subtypep '(integer 0) '(or (eql 0) (integer (0)))) => T, T
;; CLISP itself: (subtypep '(integer (0)) '(rational (0))) => T, T
(subtypep '(integer 0) '(or bit (rational (0))))

;;; Queries that a Lisp is unsure about

;; right NIL: 0
;; SBCL unsure, CLISP NIL, ECL NIL
;; SBCL itself: (typep 0 '(not bit)) => NIL
(subtypep t '(not bit))

;; right NIL: 0
;; SBCL unsure, CLISP NIL, ECL NIL
;; SBCL itself: (typep 0 '(not list)) => T
(subtypep '(not list) nil)

;; right NIL: the symbol A
;; SBCL unsure, CLISP NIL, ECL NIL
;; SBCL itself: (typep 'a 'keyword) => NIL
(subtypep '(eql a) 'keyword)

;; right NIL: :L
;; SBCL unsure, CLISP unsure, ECL NIL
(subtypep 'keyword '(eql :k))

;; right NIL: :K
;; SBCL unsure, CLISP unsure, ECL NIL
;; SBCL itself: (typep :k '(not keyword)) => NIL
(subtypep t '(not keyword))

;; right T: the symbol a is no keyword
;; SBCL unsure, CLISP T, ECL T
(subtypep '(eql a) '(not keyword))

;; right T: 1/2 is a ratio
;; SBCL unsure, CLISP T, ECL T
(subtypep t '(or ratio (not (eql 1/2))))

;; right T: all but NIL is the symbol a, or neither it nor NIL
;; SBCL unsure, CLISP T, ECL T
(subtypep '(not null) '(or (eql a) (not (member nil a))))

;; right T: T holds everything
;; SBCL T, CLISP T, ECL unsure
(subtypep '(cons integer) t)

;; right T: NIL is under every type
;; SBCL T, CLISP T, ECL unsure
(subtypep nil '(cons integer))

;; right T: each is a cons
;; SBCL T, CLISP T, ECL unsure
(subtypep '(cons integer) 'cons)

;; right NIL: 0
;; SBCL NIL, CLISP NIL, ECL unsure
(subtypep t '(cons integer))

;; right T: the same type
;; SBCL T, CLISP T, ECL unsure
(subtypep '(satisfies p) '(satisfies p))

;; right T: T holds everything
;; SBCL T, CLISP T, ECL unsure
(subtypep '(satisfies p) t)

;; right NIL: :K
;; SBCL NIL, CLISP unsure, ECL NIL
;; CLISP itself: (typep :k 'keyword) => T
(subtypep 'keyword nil)

;; right NIL: :K
;; SBCL NIL, CLISP unsure, ECL NIL
(subtypep 'keyword 'integer)

;; right NIL: NIL
;; SBCL NIL, CLISP unsure, ECL NIL
;; CLISP itself: (typep nil 'keyword) => NIL
(subtypep 'symbol 'keyword)

;; right T: a bit is 0 or 1
;; SBCL T, CLISP unsure, ECL unsure
(subtypep '(cons bit) '(or (cons (eql 0)) (cons (eql 1))))

;; right T: each car is an integer or not
;; SBCL T, CLISP unsure, ECL unsure
(subtypep 'cons '(or (cons integer) (cons (not integer))))

;; right NIL: (0 . 0)
;; SBCL NIL, CLISP unsure, ECL unsure
;; CLISP itself: (typep '(0 . 0) '(or (cons nil) (cons cons))) => NIL
(subtypep 'cons '(or (cons nil) (cons cons)))

;; right T: a vector that is an (array bit) is a bit-vector
;; SBCL unsure, CLISP T, ECL T
(subtypep 'vector '(or bit-vector (not (array bit))))

;;; Queries that take a Lisp very long

;; right NIL: no bit is a ratio
;; SBCL NIL, CLISP NIL slowly, ECL unsure
(subtypep '(cons (cons (cons (cons (cons (cons (cons (cons (cons (cons (cons (cons (cons (cons (cons (cons (cons (cons bit))))))))))))))))))
          '(cons (cons (cons (cons (cons (cons (cons (cons (cons (cons (cons (cons (cons (cons (cons (cons (cons (cons ratio)))))))))))))))))))

;; right T: each bit is an integer
;; SBCL T, CLISP T slowly, ECL unsure
(subtypep '(cons (cons (cons (cons (cons (cons (cons (cons (cons (cons (cons (cons (cons (cons (cons (cons (cons (cons (cons (cons bit))))))))))))))))))))
          '(cons (cons (cons (cons (cons (cons (cons (cons (cons (cons (cons (cons (cons (cons (cons (cons (cons (cons (cons (cons integer)))))))))))))))))))))
