;;;; From types to the text that the program reads, and from its lines back.

(in-package #:selvdrik)

(defun print-name (name stream)
  "Prints NAME between bars, so that each character stands for itself."
  (write-char #\| stream)
  (loop for character across name
        do (when (find character "|\\") (write-char #\\ stream))
           (write-char character stream))
  (write-char #\| stream))

(defun print-symbol (symbol stream)
  (let ((package (symbol-package symbol)))
    (cond ((null package) (write-string "#:" stream))
          ((eq package (find-package '#:keyword)) (write-char #\: stream))
          ((eq package (find-package '#:common-lisp)))
          (t (print-name (package-name package) stream)
             (write-string "::" stream)))
    (print-name (symbol-name symbol) stream)))

(defun print-list (list stream)
  (write-char #\( stream)
  (loop for rest = list then (cdr rest)
        do (print-datum (car rest) stream)
           (cond ((null (cdr rest)) (return))
                 ((consp (cdr rest)) (write-char #\Space stream))
                 (t (write-string " . " stream)
                    (print-datum (cdr rest) stream)
                    (return))))
  (write-char #\) stream))

(defun print-datum (object stream)
  "Prints OBJECT as the program reads it, in each Lisp alike. An object that the program has no text for is printed as
one that it reads and that no type can use."
  (typecase object
    (cons (print-list object stream))
    (symbol (print-symbol object stream))
    (rational (format stream "~:[~D~;~D/~D~]" (typep object 'ratio) (numerator object) (denominator object)))
    (float (write-string (if (typep object 'double-float) "0d0" "0f0") stream))
    (character (format stream "#\\U+~4,'0X" (char-code object)))
    (string (write-string "\"\"" stream))
    (t (write-string "#.0" stream))))

(defun print-definition (form stream)
  (if (stringp form) (write-string form stream) (print-datum form stream))
  (terpri stream))

(defun text-of (pairs definitions)
  "The text that asks PAIRS under DEFINITIONS, and a table from lines to the numbers of the pairs whose queries begin
there. A definition that is a string is text already."
  (let ((parts (append (loop for form in definitions
                             collect (with-output-to-string (part) (print-definition form part)))
                       (loop for (first second) in pairs
                             collect (with-output-to-string (part)
                                       (print-definition `(subtypep ',first ',second) part)))))
        (lines (make-hash-table)))
    (loop with line = 1
          for part in parts
          for number from (- (length definitions))
          do (unless (minusp number) (setf (gethash line lines) number))
             (incf line (count #\Newline part)))
    (values (format nil "~{~A~}" parts) lines)))

(defun read-character (stream sub-character argument)
  "Reads a character behind #\\: by itself, by its name, or by its code as U+00E9."
  (declare (ignore sub-character argument))
  (let* ((name (with-output-to-string (token)
                 (write-char (read-char stream t nil t) token)
                 (loop for next = (peek-char nil stream nil nil t)
                       until (or (null next) (find next '(#\Space #\( #\) #\Newline)))
                       do (write-char (read-char stream t nil t) token))))
         (code (and (< 2 (length name))
                    (starts-with "U+" name)
                    (parse-integer name :start 2 :radix 16 :junk-allowed t))))
    (or (cond (code (code-char code))
              ((= (length name) 1) (char name 0))
              (t (name-char name)))
        (error "There is no character ~A here." name))))

(defun witness-of (text)
  "The object that TEXT denotes, or TEXT itself where this image cannot read it. A symbol without a package is read in
COMMON-LISP-USER."
  (handler-case
      (with-standard-io-syntax
        (let ((*readtable* (copy-readtable nil))
              (*read-eval* nil))
          (set-dispatch-macro-character #\# #\\ #'read-character)
          (multiple-value-bind (object end) (read-from-string text)
            (if (= end (length text)) object text))))
    (error () text)))

(defun starts-with (prefix text)
  (and (<= (length prefix) (length text))
       (string= prefix text :end2 (length prefix))))

(defun keyword-of (word)
  (intern (string-upcase word) '#:keyword))

(defun answer-of (said)
  "Three values for what a line SAID behind its place: T T; or NIL, T and the witness; or NIL, NIL and why not."
  (let ((words (uiop:split-string said :separator " ")))
    (cond ((string= said "T") (values t t nil))
          ((starts-with "NIL WITNESS " said) (values nil t (witness-of (subseq said (length "NIL WITNESS ")))))
          ((string= (first words) "REFUSED") (values nil nil (keyword-of (second words))))
          ((starts-with "NIL UNSURE" said) (values nil nil :unsure))
          (t (values nil nil (keyword-of (first words)))))))

(defun without-place (said)
  "What a line SAID, without the place of a refusal, which is one in a text that nobody sees."
  (if (starts-with "REFUSED " said)
      (subseq said 0 (position #\Space said :from-end t))
      said))
