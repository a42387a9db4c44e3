;;;; What can go wrong beside an answer.

(in-package #:selvdrik)

(define-condition selvdrik-error (error) ()
  (:documentation "Anything that keeps the program from answering."))

(define-condition program-failed (selvdrik-error)
  ((status :initarg :status :reader failed-status)
   (output :initarg :output :reader failed-output)
   (messages :initarg :messages :reader failed-messages))
  (:documentation "The program ended with a status that stands for no answers.")
  (:report (lambda (condition stream)
             (format stream "Selvdrik ended with status ~A.~@[ ~A~]~@[ ~A~]" (failed-status condition)
                     (failed-output condition) (failed-messages condition)))))

(define-condition program-not-built (program-failed) ()
  (:documentation "There is no built program. `selvdrik ask` in a shell builds it, which this system never does.")
  (:report (lambda (condition stream)
             (format stream "The program of Selvdrik is not built or cannot be run; `selvdrik ask` in a shell builds ~
                             it.~@[ ~A~]" (failed-messages condition)))))

(define-condition unreadable-text (selvdrik-error)
  ((line :initarg :line :reader fault-line))
  (:documentation "The program cannot read what was printed of the types and definitions.")
  (:report (lambda (condition stream)
             (format stream "Selvdrik cannot read the types as they print: ~A" (fault-line condition)))))
