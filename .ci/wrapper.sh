#!/bin/sh
# wrapper.sh PROGRAM: tries the script `selvdrik` in a folder of its own, with the built program beside it as it is
# installed, and its building with a stand-in for rt. Left out is what a missing tool hinders, with a line that says so.
CDPATH='' cd -- "$(dirname -- "$0")/.." || exit 1
top=$(pwd -P)
program=$top/${1#"$top"/}
[ -x "$1" ] && case $1 in /*) program=$1 ;; esac
[ -x "$program" ] || { echo "wrapper: there is no program $program"; exit 1; }
folder=$(mktemp -d) || exit 1
trap 'rm -rf "$folder"' EXIT
mkdir -p "$folder/home of it/tool" "$folder/bin" "$folder/files" || exit 1
cp selvdrik "$folder/home of it/" && cp tool/* "$folder/home of it/tool/" || exit 1
cp "$program" "$folder/home of it/subtypep_app" || exit 1
ln -s "../home of it/selvdrik" "$folder/bin/one" && ln -s one "$folder/bin/two words" || exit 1
ln -s "$folder/bin/two words" "$folder/selvdrik" || exit 1
cd "$folder/files" || exit 1
failed=0 tried=0

# ran WORDS: runs the script through three symbolic links.
ran() {
    "$folder/selvdrik" "$@" >"$folder/out" 2>"$folder/err" </dev/null
    code=$?
}

# is NAME STATUS OUT ERR: what the run before printed and how it ended.
is() {
    tried=$((tried + 1))
    if [ "$code" != "$2" ] || [ "$(cat "$folder/out")" != "$3" ] || [ "$(cat "$folder/err")" != "$4" ]; then
        echo "wrapper: $1 ended with $code"
        sed 's/^/  out: /' "$folder/out"
        sed 's/^/  err: /' "$folder/err"
        failed=1
    fi
}

cat >plain.lisp <<'END'
(subtypep 'bit 'integer)
(subtypep '(integer 5 5) 'bit)
END
answered="plain.lisp:1:1: T
plain.lisp:2:1: NIL WITNESS 5"
echo "(subtypep '(or integer *) t)" >refused.lisp
refused='refused.lisp:1:1: REFUSED STAR-NOT-ALLOWED 1:24
refused.lisp:1:24: note: a * stands where a specifier is needed; T is the type of all objects'
cp plain.lisp 'two  words.lisp'
cp plain.lisp ./-dash.lisp
cp plain.lisp 'a=b.lisp'
cp plain.lisp '*'
echo '(defun f (x) x)' >none.lisp
: >empty.lisp
echo "(subtypep 'bit" >open.lisp
mkdir folder.lisp

ran plain.lisp; is 'a file' 0 "$answered" ''
ran ask plain.lisp; is 'ask and a file' 0 "$answered" ''
ran ask --budget 7 plain.lisp; is 'a budget' 1 'plain.lisp:1:1: TOO-LARGE
plain.lisp:1:1: note: the cost of the query is more than the budget; --budget B sets it
plain.lisp:2:1: TOO-LARGE
plain.lisp:2:1: note: the cost of the query is more than the budget; --budget B sets it' ''
ran --quiet --budget 7 plain.lisp; is 'quiet' 1 'plain.lisp:1:1: TOO-LARGE
plain.lisp:2:1: TOO-LARGE' ''
ran refused.lisp; is 'a refusal' 1 "$refused" ''
ran plain.lisp refused.lisp; is 'two files' 1 "$answered
$refused" ''
ran 'two  words.lisp'; is 'a name with blanks' 0 'two  words.lisp:1:1: T
two  words.lisp:2:1: NIL WITNESS 5' ''
ran -- -dash.lisp; is 'a name that begins with a dash' 0 '-dash.lisp:1:1: T
-dash.lisp:2:1: NIL WITNESS 5' ''
ran 'a=b.lisp' '*'; is 'names with signs' 0 'a=b.lisp:1:1: T
a=b.lisp:2:1: NIL WITNESS 5
*:1:1: T
*:2:1: NIL WITNESS 5' ''
ran "$folder/files/../files/plain.lisp" --quiet; is 'a path, and an option behind it' 0 "$folder/files/../files/plain.lisp:1:1: T
$folder/files/../files/plain.lisp:2:1: NIL WITNESS 5" ''
ran none.lisp; is 'a file without queries' 0 '' 'selvdrik: none.lisp: there is no query in it'
ran --quiet none.lisp; is 'a file without queries, quiet' 0 '' ''
ran --expect empty.lisp; is 'an empty file' 0 '' 'selvdrik: empty.lisp: there is no query in it'
ran open.lisp plain.lisp; is 'an unreadable text' 3 "open.lisp:1:1: FAULT UNCLOSED
open.lisp:1:1: note: what begins here does not end
$answered" ''
ran folder.lisp; is 'a folder' 4 '' 'selvdrik: folder.lisp: it is a folder'
ran missing.lisp plain.lisp open.lisp; is 'a missing file' 4 "$answered
open.lisp:1:1: FAULT UNCLOSED
open.lisp:1:1: note: what begins here does not end" 'selvdrik: missing.lisp: there is no such file'
cp plain.lisp locked.lisp
chmod 0 locked.lisp
if [ -r locked.lisp ] && command -v setpriv >/dev/null 2>&1 && chmod -R go+rX "$folder/home of it" "$folder/bin" &&
    chmod go+rx "$folder" "$folder/files" && setpriv --reuid=65534 --clear-groups true 2>/dev/null; then
    # The superuser may read every file; another user may not.
    setpriv --reuid=65534 --clear-groups "$folder/selvdrik" locked.lisp >"$folder/out" 2>"$folder/err" </dev/null
    code=$?
    is 'a file that may not be read' 4 '' 'selvdrik: locked.lisp: it may not be read'
elif [ -r locked.lisp ]; then
    echo 'wrapper: this user may read every file: the file that may not be read was left out'
else
    ran locked.lisp; is 'a file that may not be read' 4 '' 'selvdrik: locked.lisp: it may not be read'
fi
"$folder/selvdrik" - <plain.lisp >"$folder/out" 2>"$folder/err"; code=$?
is 'standard input by name' 0 '-:1:1: T
-:2:1: NIL WITNESS 5' ''
"$folder/selvdrik" ask <plain.lisp >"$folder/out" 2>"$folder/err"; code=$?
is 'standard input' 0 '1:1 T
2:1 NIL WITNESS 5' ''
"$folder/selvdrik" ask <&- >"$folder/out" 2>"$folder/err"; code=$?
is 'a closed input' 4 '' 'selvdrik: standard input: reading failed'
if [ -w /dev/full ]; then
    : >"$folder/out"
    "$folder/selvdrik" plain.lisp >/dev/full 2>"$folder/err"; code=$?
    tail -n 1 "$folder/err" >"$folder/last" && cp "$folder/last" "$folder/err"
    is 'a full output' 5 '' 'selvdrik: plain.lisp: the report could not be written'
else
    echo 'wrapper: there is no /dev/full: the full output was left out'
fi
ran; is 'no words' 2 'usage: subtypep_app ask|check|gen N [--budget N]' ''
ran ask --budget 0; is 'a wrong budget' 2 'usage: subtypep_app ask|check|gen N [--budget N]' ''
ran ask --budget 0 plain.lisp; is 'a wrong budget and a file' 2 '' \
    'selvdrik: the program does not take these words; selvdrik --help tells them'
ran gen 4 --budget 34; is 'a generated text beyond the budget' 1 'QUERIES 8
T 0
NIL 0
TOO-LARGE 8
ROWS 0' ''
ran gen 4 plain.lisp; is 'gen and a file' 2 '' 'selvdrik: gen reads no file; selvdrik --help tells the words'
ran --wrong plain.lisp; is 'a wrong option' 2 '' 'selvdrik: there is no option --wrong; selvdrik --help tells the words'
ran --expect; is 'expectations of no file' 2 '' \
    'selvdrik: --expect and --github need a file (- is standard input); selvdrik --help tells the words'
ran --explain star-not-allowed; is 'an explanation' 0 \
"REFUSED STAR-NOT-ALLOWED: a * stands where a specifier is needed; T is the type of all objects
    (subtypep '(or integer *) t)" ''
ran --explain nothing; is 'an explanation of nothing' 2 '' \
    'selvdrik: there is no kind nothing; selvdrik --explain tells all of them'

# Expectations: behind, within and above a query, in strings and comments, wrong ones, and ones of no query.
cat >right.lisp <<'END'
(subtypep 'bit 'integer) ; => T
; => NIL
(subtypep 'integer 'bit)
;;; => REFUSED
;; a comment between
(subtypep '(or integer *) t)
(progn
; => T
  (subtypep 'bit 'integer))
(subtypep '(float 0.0) t) ; => REFUSED FLOAT-RANGE, as the manual says
(subtypep '(member a #\; "; => T" |; => T|) t) ; => REFUSED MEMBER-OBJECT
(subtypep 'bit ; => T
          'integer)
(subtypep '(eql |é|) 'symbol) (subtypep #| ; => T |# 'symbol 'keyword) ; => NIL
END
ran --expect right.lisp; is 'expectations that hold' 0 '' ''
printf "(subtypep '(member |a\n1:1 T;| a) '(eql a)) ; => NIL\n(subtypep 'bit 'integer) ; => NIL\n" >ends.lisp
ran --expect ends.lisp; is 'an end of line in a name' 1 'ends.lisp:3:1: expected NIL, answered T' ''
cat >wrong.lisp <<'END'
(subtypep 'bit 'integer) ; => NIL
(subtypep '(integer 5 5) 'bit) ; => T
(subtypep '(integer 5 5) 'bit) ; => UNSURE
(subtypep 'bit 'bit) ; => TOO-LARGE
(subtypep 'bit 'bit) ; => REFUSED
(subtypep '(or integer *) t) ; => T
(subtypep '(or integer *) t) ; => REFUSED FLOAT-RANGE
(subtypep 'bit 'bit) ; => T
END
ran --expect wrong.lisp; is 'expectations that do not hold' 1 'wrong.lisp:1:1: expected NIL, answered T
wrong.lisp:2:1: expected T, answered NIL WITNESS 5
wrong.lisp:3:1: expected UNSURE, answered NIL WITNESS 5
wrong.lisp:4:1: expected TOO-LARGE, answered T
wrong.lisp:5:1: expected REFUSED, answered T
wrong.lisp:6:1: expected T, answered REFUSED STAR-NOT-ALLOWED 6:24
wrong.lisp:7:1: expected REFUSED FLOAT-RANGE, answered REFUSED STAR-NOT-ALLOWED 7:24' ''
ran --expect right.lisp wrong.lisp missing.lisp; tried=$((tried + 1))
[ "$code" = 4 ] || { echo "wrapper: expectations and a missing file ended with $code"; failed=1; }
echo "(subtypep 'bit 'bit) ; => TOO-LARGE" >large.lisp
ran --expect --budget 7 large.lisp; is 'an expected TOO-LARGE' 0 '' ''
ran --expect refused.lisp; is 'a refusal without an expectation' 1 "$refused" ''
ran --expect plain.lisp; is 'no expectation' 0 '' ''
echo '(f) ; => T' >>large.lisp
ran --expect --budget 7 large.lisp; is 'an expectation of no query' 0 '' \
    'selvdrik: large.lisp: expectations that belong to no query: 1'
ran --expect open.lisp; is 'expectations in an unreadable text' 3 'open.lisp:1:1: FAULT UNCLOSED
open.lisp:1:1: note: what begins here does not end' ''
printf '(subtypep (quote bit) (quote bit)) ; => T\r\n(subtypep (quote bit) nil) ; => NIL\r\n' >returns.lisp
ran --expect returns.lisp; is 'lines that end with a return' 0 '' ''
"$folder/selvdrik" --expect - <wrong.lisp >"$folder/out" 2>"$folder/err"; code=$?
head -n 1 "$folder/out" >"$folder/first" && cp "$folder/first" "$folder/out"
is 'expectations of standard input' 1 '-:1:1: expected NIL, answered T' ''
ran --expect --github wrong.lisp; sed -n 1p "$folder/out" >"$folder/first" && cp "$folder/first" "$folder/out"
is 'annotations of differences' 1 \
    '::error file=wrong.lisp,line=1,col=1,title=selvdrik::expected NIL, answered T' ''
cp refused.lisp 'a,b:c%.lisp'
ran --github 'a,b:c%.lisp' open.lisp; is 'annotations' 3 \
'::warning file=a%2Cb%3Ac%25.lisp,line=1,col=24,title=selvdrik::REFUSED STAR-NOT-ALLOWED 1:24 (a * stands where a specifier is needed; T is the type of all objects)
::error file=open.lisp,line=1,col=1,title=selvdrik::FAULT UNCLOSED (what begins here does not end)' ''

# Counts, where standard error is a terminal.
if command -v python3 >/dev/null 2>&1; then
    python3 -c 'import pty, sys, os; os.environ["TERM"] = "dumb"; sys.exit(os.waitstatus_to_exitcode(pty.spawn(sys.argv[1:])))' \
        "$folder/selvdrik" --expect wrong.lisp >"$folder/terminal" 2>&1 </dev/null
    code=$?
    tail -n 1 "$folder/terminal" | tr -d '\r' >"$folder/out"
    : >"$folder/err"
    is 'counts on a terminal' 1 'selvdrik: queries 8, with an expectation 8, other than expected 7' ''
else
    echo 'wrapper: python3 is missing: the counts on a terminal were left out'
fi

# Lines and statuses that this program does not bring about here: a stand-in says SAID and ends with ENDS.
mkdir -p "$folder/other/tool" && cp "$top"/tool/* "$folder/other/tool/" && cp "$top/selvdrik" "$folder/other/" || exit 1
printf '#!/bin/sh\ncat >/dev/null\nprintf "%%s" "$SAID"\nexit "$ENDS"\n' >"$folder/other/subtypep_app"
chmod +x "$folder/other/subtypep_app"
said() {
    SAID=$1 ENDS=$2
    export SAID ENDS
    shift 2
    "$folder/other/selvdrik" "$@" >"$folder/out" 2>"$folder/err" </dev/null
    code=$?
}
printf '(a) ; => UNSURE\n(b) ; => UNSURE\n(c) ; => NIL\n(d) ; => NIL\n(e) ; => T\n' >said.lisp
said '1:1 NIL UNSURE 5
2:1 UNSURE
3:1 NIL
4:1 NIL UNSURE 5
5:1 UNSURE
' 0 --expect said.lisp
is 'expectations of UNSURE' 1 'said.lisp:4:1: expected NIL, answered NIL UNSURE 5
said.lisp:5:1: expected T, answered UNSURE' ''
said '' 4 plain.lisp; is 'a failed read' 4 '' 'selvdrik: plain.lisp: reading failed'
said '1:1 T' 5 plain.lisp; is 'a failed write' 5 '' 'selvdrik: plain.lisp: the report could not be written'
said '' 6 plain.lisp; is 'want of memory' 6 '' 'selvdrik: plain.lisp: memory was wanting, so nothing of it is answered'
said '' 6 ask; is 'want of memory without a file' 6 '' \
    'selvdrik: standard input: memory was wanting, so nothing of it is answered'
said '' 139 plain.lisp empty.lisp; is 'a program that dies' 139 '' 'selvdrik: plain.lisp: the program ended with status 139
selvdrik: empty.lisp: the program ended with status 139'
said 'FAULT TOO-LONG
' 3 plain.lisp; is 'a fault without a place' 3 'plain.lisp: FAULT TOO-LONG
plain.lisp: note: a text of more than 16,777,216 bytes' ''
said 'FAULT TOO-LONG
' 3 --github plain.lisp; is 'an annotation without a place' 3 \
    '::error file=plain.lisp,title=selvdrik::FAULT TOO-LONG (a text of more than 16,777,216 bytes)' ''

# Each kind of the manual is explained, and each text that explains a kind shows it.
for kind in $(sed -n 's/^| `\([A-Z-]*\)`\(, `\([A-Z-]*\)`\)* |.*/\1 \3/p; s/^| `FAULT \([A-Z0-9-]*\)[ `].*/\1/p' "$top/docs/manual.md"); do
    ran --explain "$kind"
    tried=$((tried + 1))
    [ "$code" = 0 ] || { echo "wrapper: the manual's kind $kind is not explained"; failed=1; }
done
tab=$(printf '\t')
grep -v '^#' "$top/tool/kinds.txt" | while IFS=$tab read -r kind meaning text; do
    [ -n "$text" ] || continue
    printf '%s\n' "$text" >shown.lisp
    "$folder/selvdrik" shown.lisp 2>&1 | grep -q "^shown.lisp:[0-9:]* $kind\b" ||
        echo "wrapper: the text that explains $kind does not show it"
done >"$folder/unshown"
[ ! -s "$folder/unshown" ] || { cat "$folder/unshown"; failed=1; }

# Building: a folder like the repository, and a stand-in for rt that makes the program, or fails.
mkdir -p "$folder/repository/tool" "$folder/rt" || exit 1
for crate in low middle apart subtypep_app; do
    mkdir -p "$folder/repository/crates/$crate/src" "$folder/repository/crates/$crate/specs" \
        "$folder/repository/crates/$crate/proofs" || exit 1
done
cp "$top/selvdrik" "$folder/repository/" && cp "$top"/tool/* "$folder/repository/tool/" || exit 1
printf 'low: kit\napart: low\nmiddle: low # a comment\nsubtypep_app: middle kit\n' >"$folder/repository/crates.txt"
ln -s "$folder/repository/selvdrik" "$folder/bin/built"
built() {
    PATH=$folder/rt:$PATH "$folder/bin/built" "$@" >"$folder/out" 2>"$folder/err" </dev/null
    code=$?
    sed 's/ *[0-9][0-9]* s$/ N s/' "$folder/err" >"$folder/last" && cp "$folder/last" "$folder/err"
}
built --no-build plain.lisp; is 'no build' 126 '' \
    'selvdrik: the program is not built, or older than its sources; selvdrik ask builds it'
for words in --help --version --explain; do
    built "$words"
    tried=$((tried + 1))
    [ "$code" = 0 ] && [ ! -s "$folder/err" ] || { echo "wrapper: $words begins a build"; failed=1; }
done
printf '#!/bin/sh\necho wrong >&2\nexit 1\n' >"$folder/rt/rt" && chmod +x "$folder/rt/rt"
built plain.lisp; tried=$((tried + 1))
if [ "$code" != 126 ] || ! grep -q '1 of 3: low  *failed' "$folder/err"; then
    echo "wrapper: a build that fails ended with $code"
    cat "$folder/err"
    failed=1
fi
cat >"$folder/rt/rt" <<'END'
#!/bin/sh
[ "$1" = lib ] && exit 0
mkdir -p out && cp "$PROGRAM" out/subtypep_app
END
PROGRAM=$program
export PROGRAM
built plain.lisp
is 'a first build' 0 "$answered" 'selvdrik: proving and building the program; the first time this takes about an hour on four processors
selvdrik:  1 of 3: low N s
selvdrik:  2 of 3: middle N s
selvdrik:  3 of 3: subtypep_app N s
selvdrik: built in N s'
built plain.lisp; is 'no second build' 0 "$answered" ''

# Completions, as far as the shells are there.
if command -v bash >/dev/null 2>&1; then
    said=$(bash -c '. "$0"; COMP_WORDS=(selvdrik --e); COMP_CWORD=1; _selvdrik; echo "${COMPREPLY[*]}"
        COMP_WORDS=(selvdrik --explain STRAY); COMP_CWORD=2; _selvdrik; echo "${COMPREPLY[*]}"
        COMP_WORDS=(selvdrik plain); COMP_CWORD=1; _selvdrik; echo "${COMPREPLY[*]}"' "$top/completions/selvdrik.bash")
    code=0
    printf '%s\n' "$said" >"$folder/out"
    : >"$folder/err"
    is 'completions of bash' 0 '--expect --explain
STRAY-CLOSE
plain.lisp' ''
else
    echo 'wrapper: bash is missing: its completions were left out'
fi
if command -v zsh >/dev/null 2>&1; then
    zsh -n "$top/completions/_selvdrik" || { echo 'wrapper: the completions of zsh are wrong'; failed=1; }
else
    echo 'wrapper: zsh is missing: its completions were left out'
fi

# Installing.
if command -v make >/dev/null 2>&1; then
    cp -R "$top/Makefile" "$top/completions" "$top/lisp" "$top/docs" "$folder/repository/" || exit 1
    (cd "$folder/repository" && make install PREFIX="$folder/pre fix") >"$folder/out" 2>&1 || {
        echo 'wrapper: make install failed'
        cat "$folder/out"
        failed=1
    }
    "$folder/pre fix/bin/selvdrik" plain.lisp >"$folder/out" 2>"$folder/err" </dev/null; code=$?
    is 'the installed script' 0 "$answered" ''
    (cd "$folder/repository" && make uninstall PREFIX="$folder/pre fix") >/dev/null 2>&1
    tried=$((tried + 1))
    left=$(find "$folder/pre fix" ! -type d)
    [ -z "$left" ] || { echo "wrapper: make uninstall left $left"; failed=1; }
else
    echo 'wrapper: make is missing: installing was left out'
fi
[ "$failed" = 0 ] && echo "wrapper: $tried tries, all as they should be"
exit "$failed"
