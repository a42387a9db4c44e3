;;;; Selvdrik from within a Lisp image. SBCL, CLISP and ECL are tried.

(defsystem "selvdrik"
  :description "Decides SUBTYPEP by a proved program, with a witness for each NIL."
  :version "0.1"
  :depends-on ("uiop")
  :serial t
  :components ((:file "package")
               (:file "conditions")
               (:file "text")
               (:file "decide"))
  :in-order-to ((test-op (test-op "selvdrik/tests"))))

(defsystem "selvdrik/tests"
  :description "Tests of selvdrik, by hand."
  :depends-on ("selvdrik")
  :components ((:file "tests"))
  :perform (test-op (operation system)
             (unless (symbol-call :selvdrik/tests '#:run-tests)
               (error "Tests of selvdrik failed."))))
