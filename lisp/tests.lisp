;;;; Tests by hand: each TRY counts, and RUN-TESTS tells what failed.

(defpackage #:selvdrik/tests
  (:use #:common-lisp #:selvdrik)
  (:export #:run-tests))

(in-package #:selvdrik/tests)

(defvar *failures*)
(defvar *tries*)

(defun %try (what wanted got)
  (incf *tries*)
  (unless (equal wanted got)
    (push (list what :wanted wanted :got got) *failures*)))

(defmacro try (wanted form)
  "Compares the list of the values of FORM with the value of WANTED."
  `(%try ',form ,wanted (multiple-value-list ,form)))

(defmacro signals (condition form)
  "Whether FORM signals an error of the type CONDITION."
  `(%try ',form ',condition (handler-case (progn ,form nil)
                              (,condition () ',condition)
                              (error (other) (princ-to-string other)))))

(defmacro first-values (count form)
  `(values-list (subseq (multiple-value-list ,form) 0 ,count)))

(defun is-witness (first second)
  "Whether the witness for FIRST and SECOND is of the one and not of the other, as this image has it."
  (multiple-value-bind (yes sure object) (decide first second)
    (and (not yes) sure (typep object first) (not (typep object second)))))

(defun try-answers ()
  (try '(t t nil "T") (decide 'bit 'integer))
  (try '(nil t 5 "NIL WITNESS 5") (decide '(integer 5 5) 'bit))
  (try '(nil t 1/2 "NIL WITNESS 1/2") (decide '(rational 1/2 1/2) 'integer))
  (try '(nil t #\a "NIL WITNESS #\\a") (decide '(eql #\a) 'integer))
  (try (list nil t (code-char 233) "NIL WITNESS #\\U+00E9") (decide (list 'eql (code-char 233)) 'integer))
  (try '(nil t #\Space "NIL WITNESS #\\Space") (decide '(eql #\Space) 'integer))
  (try '(nil t :k "NIL WITNESS :K") (decide '(eql :k) 'integer))
  (try '(nil t cl-user::b "NIL WITNESS B") (decide '(member cl-user::a cl-user::b) '(eql cl-user::a)))
  (try '(nil t car "NIL WITNESS CAR") (decide '(eql car) 'keyword))
  (try '(nil t |small name| "NIL WITNESS SELVDRIK/TESTS::|small name|") (decide '(eql |small name|) 'keyword))
  (try '(nil t (1 . 2) "NIL WITNESS (1 . 2)") (decide '(cons (eql 1) (eql 2)) '(cons (eql 1) (eql 3))))
  (try '(nil t (1 2) "NIL WITNESS (1 2)") (decide '(cons (eql 1) (cons (eql 2) null)) 'symbol))
  (try '(nil t "#<HASH-TABLE>" "NIL WITNESS #<HASH-TABLE>") (decide 'hash-table 'integer))
  (try '(t t nil "T") (decide '(vector (integer 0 100)) '(array (unsigned-byte 7) (*))))
  (try '(t t nil "T") (decide 'simple-base-string '(and string simple-array sequence)))
  (try '(nil t) (first-values 2 (decide '(bit-vector 2) '(array t))))
  (try '(nil nil :bad-argument) (first-values 3 (decide '(array t (2 -1)) t)))
  (try '(nil nil :star-not-allowed) (first-values 3 (decide '(or integer *) t)))
  (try '(nil nil :too-large "TOO-LARGE") (decide 'bit 'integer :budget 7))
  (try '(nil nil :number-too-wide) (first-values 3 (decide `(integer 0 ,(expt 2 70)) t)))
  (try '(nil nil :member-object) (first-values 3 (decide '(eql 1.5d0) t)))
  (try '(nil nil :member-object) (first-values 3 (decide (list 'eql (make-hash-table)) t)))
  (try '(nil nil :member-object) (first-values 3 (decide (list 'eql (make-symbol "A")) t))))

(defun try-witnesses ()
  (dolist (pair '((integer bit) (t (not bit)) ((not list) nil) ((eql car) keyword) (keyword (eql :k)) (t (not keyword))
                  (symbol keyword) (cons (or (cons nil) (cons cons))) (rational integer) (character standard-char)
                  ((integer 0 10) (integer (0) 10)) ((member 1 a #\b) (member 1 a))))
    (try '(t) (is-witness (first pair) (second pair)))))

(defun try-lists ()
  (try '(((t t nil "T") (nil t 5 "NIL WITNESS 5") (nil nil :too-large "TOO-LARGE")))
       (decide-all '((nil nil) ((integer 5 5) (integer 6 6)) ((integer 5 5) (member 1 2 3 4 5 6))) :budget 40))
  ;; A name with an end of line in it, in a query and in a witness.
  (let ((name (intern (format nil "two~%1:1 T |lines\\") '#:selvdrik/tests)))
    (try `(((nil t ,name ,(format nil "NIL WITNESS SELVDRIK/TESTS::|two~%1:1 T \\|lines\\\\|")) (t t nil "T")))
         (decide-all `(((eql ,name) integer) (bit integer)))))
  (try '(nil) (decide-all '()))
  (try '(100) (length (decide-all (loop for i below 100 collect (list `(integer ,i) 'integer)))))
  ;; Definitions stand before the queries, of however many lines they are.
  (try '(((t t nil "T")))
       (decide-all '((bit integer)) :definitions '((deftype index () '(integer 0)) (defstruct |two
lines|) (subtypep 'bit nil))))
  (try '(((t t nil "T")))
       (decide-all '((bit integer))
                   :definitions (list (format nil "(deftype index () `(integer ~%0))~%; a comment"))))
  ;; The types that they define.
  (let ((structure "#<STRUCTURE SELVDRIK/TESTS::PART>"))
    (try `(((t t nil "T") (nil t ,structure ,(format nil "NIL WITNESS ~A" structure))))
         (decide-all '((index (integer -1)) (part index))
                     :definitions '((deftype index () '(integer 0)) (defstruct part index))))))

(defun try-failures ()
  (signals program-failed (decide 'bit 'integer :budget 0))
  (let ((*program* "/nowhere/selvdrik"))
    (signals program-not-built (decide 'bit 'integer)))
  (signals unreadable-text (decide (let ((deep t)) (dotimes (i 300 deep) (setf deep `(not ,deep)))) t)))

(defun run-tests ()
  "Runs all tests, prints what failed, and gives T where nothing did."
  (let ((*failures* '()) (*tries* 0))
    (try-answers)
    (try-witnesses)
    (try-lists)
    (try-failures)
    (format t "~&lisp: ~A ~A: ~D tests, ~D failed~%" (lisp-implementation-type) (lisp-implementation-version) *tries*
            (length *failures*))
    (dolist (failure (reverse *failures*))
      (format t "  ~S~%" failure))
    (null *failures*)))
