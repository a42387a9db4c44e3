#!/bin/sh
# editors.sh PROGRAM: runs the snippets of docs/editors.md in Emacs and Vim in batch mode, over the built program. An
# editor that is missing is left out, with a line that says so.
CDPATH='' cd -- "$(dirname -- "$0")/.." || exit 1
folder=$(mktemp -d) || exit 1
trap 'rm -rf "$folder"' EXIT
mkdir "$folder/tool" || exit 1
cp selvdrik "$folder/" && cp tool/* "$folder/tool/" && cp "$1" "$folder/subtypep_app" || exit 1
PATH=$folder:$PATH
export PATH
# The blocks of a language, one after the other.
blocks() {
    sed -n "/^\`\`\`$1\$/,/^\`\`\`\$/{/^\`\`\`/d;p;}" docs/editors.md
}
cat >"$folder/some types.lisp" <<'END'
(subtypep 'bit 'integer)                ; => T
(subtypep '(integer 5 5) 'bit)          ; => T
(subtypep '(or integer *) t)
END
cp .ci/editors.el "$folder/" || exit 1
blocks elisp >"$folder/snippets.el"
blocks vim >"$folder/snippets.vim"
failed=0
cd "$folder" || exit 1

if command -v emacs >/dev/null 2>&1; then
    timeout 300 emacs -Q --batch -l snippets.el -l editors.el >out 2>err || {
        echo 'editors: Emacs failed'
        cat err
        failed=1
    }
    cat >wanted <<'END'
compile 1:1 0
compile 2:1 1
compile 3:1 1
compile 3:24 0
flymake 2 (subtypep '(integer 5 5) 'bit): expected T, answered NIL WITNESS 5
flymake 3 *: REFUSED STAR-NOT-ALLOWED 3:24
END
    diff wanted out || { echo 'editors: Emacs reads other places'; failed=1; }
else
    echo 'editors: emacs is missing and was left out'
fi

if command -v vim >/dev/null 2>&1; then
    cat >test.vim <<'END'
source snippets.vim
edit some\ types.lisp
silent make!
let found = map(getqflist(), 'bufname(v:val.bufnr) . " " . v:val.lnum . ":" . v:val.col . " " . trim(v:val.text)')
call writefile(found, 'out')
qall!
END
    rm -f out
    timeout 300 vim -N -u NONE -i NONE -es -S test.vim >log 2>&1 </dev/null
    cat >wanted <<'END'
some types.lisp 1:1 T
some types.lisp 2:1 NIL WITNESS 5
some types.lisp 3:1 REFUSED STAR-NOT-ALLOWED 3:24
END
    diff wanted out || { echo 'editors: Vim reads other places'; cat log; failed=1; }
else
    echo 'editors: vim is missing and was left out'
fi
[ "$failed" = 0 ] && echo 'editors: they go to the places of the lines'
exit "$failed"
