;; The types of a small shop, and what its authors rely on. Behind each query stands what it is answered by. Nothing is
;; known of what CHECKSUM-P and the other predicates mean.
(in-package :shop)

(eval-when (:compile-toplevel :load-toplevel :execute)
  (deftype cents () '(integer 0 99999999))
  (deftype percent () '(integer 0 100))
  (deftype currency () '(member :eur :nok :dkk))
  (deftype price (&optional (in 'currency)) `(cons cents ,in))
  (deftype ean () '(and (simple-string 13) (satisfies checksum-p))))

(defstruct item (ean "" :type ean) (price '(0 . :eur) :type price))
(defstruct (book (:include item)) title (pages 0 :type fixnum))
(defstruct (album (:include item)) artist tracks)

(defclass basket () ((items :initform '())))

(deftype sent ()
  "An order that passed all checks of the warehouse."
  '(and list
    (satisfies known-p) (satisfies priced-p) (satisfies paid-p) (satisfies booked-p) (satisfies listed-p)
    (satisfies found-p) (satisfies counted-p) (satisfies whole-p) (satisfies clean-p) (satisfies weighed-p)
    (satisfies packed-p) (satisfies sealed-p) (satisfies labelled-p) (satisfies scanned-p) (satisfies insured-p)
    (satisfies loaded-p) (satisfies driven-p) (satisfies signed-p)))

(defun total (prices)
  (reduce #'+ prices :key #'car))

;; Whether one type is included in another.
(subtypep 'percent 'cents)                                  ; => T
(subtypep 'cents 'fixnum)                                   ; => T
(subtypep 'cents '(unsigned-byte 26))                       ; => NIL: 67108864 has 27 bits
(subtypep '(price (eql :eur)) 'price)                       ; => T
(subtypep 'price '(or (price (eql :eur)) (price (eql :nok)))) ; => NIL: a price in Danish crowns
(subtypep 'book 'item)                                      ; => T
(subtypep '(and book album) nil)                            ; => T
(subtypep 'item '(or book album))                           ; => NIL: an item that is neither
(subtypep '(vector percent) '(vector (unsigned-byte 7)))    ; => T

;; The same with a predicate. What it means is not known, so T and NIL hold whatever it means.
(subtypep 'ean '(string 13))                                ; => T
(subtypep '(string 13) 'ean)                                ; => NIL: a string that is not simple
(subtypep '(simple-string 13) 'ean)                         ; => UNSURE: CHECKSUM-P may be false of one

;; Whether an object belongs to a type.
(typep 1995 'cents)                                         ; => T
(typep '(1995 . :eur) 'price)                               ; => T
(typep '(1995 . :gbp) 'price)                               ; => NIL
(typep "978-0131103627" 'ean)                               ; => NIL: it has 14 characters
(typep "9780131103627" 'ean)                                ; => UNSURE

;; What is refused, and what costs too much.
(subtypep 'basket t)                                        ; => REFUSED CLASS-TYPE
(subtypep '(price) '(cons (float 0.0)))                     ; => REFUSED FLOAT-RANGE
(typep *basket* 'list)                                      ; => REFUSED NO-LITERAL
(subtypep 'sent '(and list (satisfies paid-p)))             ; => TOO-LARGE: each predicate doubles the cost
