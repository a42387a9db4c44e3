;;;; Asking the program.

(in-package #:selvdrik)

(defparameter *program* nil
  "The script selvdrik, or a program that takes its words: its name, or NIL to look for it.")

(defun program-name ()
  "The script that is asked: *PROGRAM*; or what the environment's SELVDRIK names; or the one of the repository that this
system lies in; or the one on PATH."
  (or *program*
      (let ((named (uiop:getenv "SELVDRIK")))
        (and named (string/= named "") named))
      (let ((beside (ignore-errors (asdf:system-relative-pathname "selvdrik" "../selvdrik"))))
        (and beside (uiop:file-exists-p beside) beside))
      "selvdrik"))

(defun not-built (status output messages)
  (error 'program-not-built :status status :output output :messages messages))

(defun words-for (budget)
  "The script and its words. Whatever happens, it does not begin a build from here."
  (let ((name (uiop:native-namestring (program-name))))
    (when (and (find #\/ name) (not (uiop:file-exists-p (uiop:parse-native-namestring name))))
      (not-built 127 nil (format nil "There is no file ~A." name)))
    (list* name "--no-build" "ask" (and budget (list "--budget" (princ-to-string budget))))))

(defun run (text budget)
  "Hands TEXT to the program: its output, its messages and its status."
  (let ((words (words-for budget)))
    (uiop:with-temporary-file (:stream stream :pathname input :external-format uiop:*utf-8-external-format*)
      (write-string text stream)
      :close-stream
      (handler-case
          (uiop:run-program words :input input :output :string :error-output :string
                                  :external-format uiop:*utf-8-external-format* :ignore-error-status t)
        (error (problem) (not-built 127 nil (princ-to-string problem)))))))

(defun trimmed (text)
  (let ((text (string-trim '(#\Newline #\Space) text)))
    (and (string/= text "") text)))

(defun split-report (report)
  "The lines of REPORT; an end of line between bars belongs to the name of a symbol."
  (let ((in-bars nil) (escaped nil) (start 0) (lines '()))
    (loop for character across report
          for end from 0
          do (cond (escaped (setf escaped nil))
                   ((char= character #\\) (setf escaped t))
                   ((char= character #\|) (setf in-bars (not in-bars)))
                   ((and (char= character #\Newline) (not in-bars))
                    (push (subseq report start end) lines)
                    (setf start (1+ end)))))
    (nreverse lines)))

(defun lines-of (text budget)
  "The lines of the program's report on TEXT."
  (multiple-value-bind (output messages status) (run text budget)
    (case status
      ((0 1) (split-report output))
      (3 (error 'unreadable-text :line (trimmed output)))
      ((126 127) (not-built status (trimmed output) (trimmed messages)))
      (t (error 'program-failed :status status :output (trimmed output) :messages (trimmed messages))))))

(defun put-answer (report-line lines answers)
  "Puts what a line LINE:COLUMN .. of the report says into ANSWERS, by the table LINES from lines to their places."
  (let ((number (gethash (parse-integer report-line :end (position #\: report-line)) lines))
        (said (subseq report-line (1+ (position #\Space report-line)))))
    ;; A query among the definitions has a line too, which nobody asked for.
    (when number
      (setf (aref answers number)
            (multiple-value-bind (yes sure third) (answer-of said)
              (list yes sure third (without-place said)))))))

(defun decide-all (pairs &key definitions budget)
  "Decides for each of PAIRS, lists (A B), whether the type A is included in the type B, in one process. The answer is a
list of lists with what DECIDE gives. DEFINITIONS and BUDGET are as in DECIDE."
  (when pairs
    (multiple-value-bind (text lines) (text-of pairs definitions)
      (let ((answers (make-array (length pairs) :initial-element nil))
            (report (lines-of text budget)))
        (dolist (line report)
          (put-answer line lines answers))
        (when (position nil answers)
          (error 'program-failed :status 0 :output (format nil "~{~A~%~}" report)
                                 :messages "Not every query was answered."))
        (coerce answers 'list)))))

(defun decide (first second &key definitions budget)
  "Decides whether the type FIRST is included in the type SECOND. Values:
   T, T, NIL: it is.
   NIL, T, and a witness, an object of FIRST that is not in SECOND, or its text where this image cannot read it.
   NIL, NIL, and a keyword that tells why it is not decided, as :STAR-NOT-ALLOWED, :TOO-LARGE or :UNSURE.
The fourth value is what the program's line says. DEFINITIONS are forms such as DEFTYPE and DEFSTRUCT, or strings with
such forms, that stand before the query. BUDGET is the greatest cost of a query that is decided."
  (values-list (first (decide-all (list (list first second)) :definitions definitions :budget budget))))
