#!/bin/sh
# lisp.sh PROGRAM: runs the tests of the ASDF system with each Lisp that is there, over the built program. What is
# missing is left out, with a line that says so.
CDPATH='' cd -- "$(dirname -- "$0")/.." || exit 1
folder=$(mktemp -d) || exit 1
trap 'rm -rf "$folder"' EXIT
mkdir "$folder/tool" "$folder/cache" || exit 1
cp selvdrik "$folder/" && cp tool/* "$folder/tool/" && cp "$1" "$folder/subtypep_app" || exit 1
SELVDRIK=$folder/selvdrik
XDG_CACHE_HOME=$folder/cache
export SELVDRIK XDG_CACHE_HOME
cat >"$folder/test.lisp" <<'END'
(or (ignore-errors (require "asdf")) (ignore-errors (require :asdf)))
(unless (find-package "ASDF")
  (dolist (place '("/usr/share/common-lisp/source/cl-asdf/build/asdf.lisp" "/usr/share/cl-asdf/build/asdf.lisp"))
    (when (and (not (find-package "ASDF")) (probe-file place)) (load place))))
(unless (find-package "ASDF")
  (format t "lisp: ~A: there is no ASDF, so its tests were left out~%" (lisp-implementation-type))
  #+sbcl (sb-ext:exit :code 0 :abort t) #+clisp (ext:exit 0) #+ecl (ext:quit 0))
(defvar *passed*
  (handler-case
      (let ((*load-verbose* nil) (*compile-verbose* nil) (*compile-print* nil))
        (funcall (intern "LOAD-ASD" "ASDF") (truename "lisp/selvdrik.asd"))
        (let ((log (make-string-output-stream)))
          (handler-bind ((error (lambda (problem)
                                  (format t "~A~%~A~%" (get-output-stream-string log) problem))))
            (let ((*standard-output* log))
              (funcall (intern "LOAD-SYSTEM" "ASDF") "selvdrik/tests"))))
        (let ((passed (funcall (intern "RUN-TESTS" "SELVDRIK/TESTS"))))
          (load (merge-pathnames "page.lisp" *load-truename*))
          (and (funcall 'examples-hold "docs/lisp.md") passed)))
    (error (problem) (format t "~A~%" problem) nil)))
(finish-output)
#+sbcl (sb-ext:exit :code (if *passed* 0 1) :abort t)
#+clisp (ext:exit (if *passed* 0 1))
#+ecl (ext:quit (if *passed* 0 1))
END
# The examples of the page: in its blocks, each form that a comment with its values follows.
cat >"$folder/page.lisp" <<'END'
(defun holds (form wanted)
  (let ((got (let ((*print-pretty* nil))
               (format nil "~{~S~^, ~}" (multiple-value-list (eval (read-from-string form)))))))
    (or (string= got wanted)
        (format t "~&lisp: ~A gives ~A~%" form got))))

(defun examples-hold (page)
  (with-open-file (stream page)
    (loop with form = "" with count = 0 with hold = t
          for line = (read-line stream nil)
          while line
          do (cond ((and (< 6 (length line)) (string= ";; => " line :end2 6))
                    (incf count)
                    (unless (eq (holds form (subseq line 6)) t) (setf hold nil))
                    (setf form ""))
                   ((and (< 2 (length line)) (string= "```" line :end2 3)) (setf form ""))
                   (t (setf form (format nil "~A~%~A" form line))))
          finally (return (and hold (< 3 count))))))
END
failed=0

# try LISP WORDS: the tests with that Lisp.
try() {
    if command -v "$1" >/dev/null 2>&1; then
        timeout 900 "$@" </dev/null 2>&1 || { echo "lisp: the tests failed with $1"; failed=1; }
    else
        echo "lisp: $1 is missing: its tests were left out"
    fi
}

try sbcl --noinform --no-sysinit --no-userinit --disable-debugger --load "$folder/test.lisp"
try clisp -q -q -norc "$folder/test.lisp"
try ecl --norc --shell "$folder/test.lisp"
exit "$failed"
