#!/bin/sh
# page.sh: the manual page formats without a warning, and it, the script's --help and the completions name the same
# options. Where man is missing, the first is left out.
CDPATH='' cd -- "$(dirname -- "$0")/.." || exit 1
failed=0
if command -v man >/dev/null 2>&1 && command -v groff >/dev/null 2>&1; then
    warnings=$(LC_ALL=C.UTF-8 MANROFFSEQ='' MANWIDTH=100 man --warnings -E UTF-8 -l -Tutf8 -Z docs/selvdrik.1 \
        2>&1 >/dev/null)
    if [ -n "$warnings" ]; then
        printf 'page: %s\n' "$warnings"
        failed=1
    fi
else
    echo 'page: man or groff is missing: the warnings of the manual page were left out'
fi
options() {
    grep -o -e '--[a-z][a-z-]*' | sort -u
}
wanted=$(./selvdrik --help | options)
for file in docs/selvdrik.1 completions/selvdrik.bash completions/_selvdrik; do
    said=$(sed 's/\\-/-/g; s/compgen .* -- / /; s/_arguments -S//' "$file" | options)
    if [ "$said" != "$wanted" ]; then
        echo "page: $file names the options" $said "and --help" $wanted
        failed=1
    fi
done
kinds=$(sed -n '/^#/d; s/^\(REFUSED \|FAULT \)*\([A-Z0-9-]*\).*/\2/p' tool/kinds.txt | sort -u)
for file in completions/selvdrik.bash completions/_selvdrik; do
    said=$(grep -o -w '[A-Z][A-Z0-9]*-[A-Z0-9-]*\|LABEL\|UNCLOSED' "$file" | grep -v COMP_ | sort -u)
    if [ "$said" != "$kinds" ]; then
        echo "page: $file names the kinds" $said "and tool/kinds.txt" $kinds
        failed=1
    fi
done
wanted="selvdrik $(sed -n 's/.*:version "\(.*\)".*/\1/p' lisp/selvdrik.asd)"
if [ "$(./selvdrik --version)" != "$wanted" ] || ! grep -q "\"$wanted\"" docs/selvdrik.1; then
    echo "page: the script, lisp/selvdrik.asd and docs/selvdrik.1 name different versions"
    failed=1
fi
[ "$failed" = 0 ] && echo 'page: the manual page, --help and the completions agree'
exit "$failed"
