;;;; The package of the system.

(defpackage #:selvdrik
  (:use #:common-lisp)
  (:export #:decide #:decide-all #:*program*
           #:selvdrik-error #:program-not-built #:program-failed #:unreadable-text
           #:failed-status #:failed-output #:failed-messages #:fault-line))
