#!/bin/sh
# statuses.sh PROGRAM: runs the built program at each ending that a shell can bring about, and compares its exit status
# and its bytes. (Want of memory, 6, is not among them.)
program=$1
folder=$(mktemp -d) || exit 1
trap 'rm -rf "$folder"' EXIT
failed=0

# ended NAME STATUS WANTED: the run before left its bytes in the folder's file `out`.
ended() {
    if [ "$code" != "$2" ] || [ "$(cat "$folder/out")" != "$3" ]; then
        echo "statuses: $1 ended with $code and '$(cat "$folder/out")'"
        failed=1
    fi
}

usage='usage: subtypep_app ask|check|gen N [--budget N]'
answered="(subtypep 'bit 'integer)"

echo "$answered" | "$program" ask >"$folder/out" 2>&1; code=$?
ended 'an answered text' 0 '1:1 T'
echo "(subtypep '(integer 5 5) 'bit)" | "$program" ask >"$folder/out" 2>&1; code=$?
ended 'a text with a witness' 0 '1:1 NIL WITNESS 5'
echo "(subtypep '(or integer *) t)" | "$program" ask >"$folder/out" 2>&1; code=$?
ended 'a refused query' 1 '1:1 REFUSED STAR-NOT-ALLOWED 1:24'
echo "(subtypep 'bit" | "$program" ask >"$folder/out" 2>&1; code=$?
ended 'an unreadable text' 3 'FAULT UNCLOSED 1:1'
: | "$program" ask >"$folder/out" 2>&1; code=$?
ended 'an empty text' 0 ''
for words in '' 'answer' 'ask ask' 'ask --budget 0' 'ASK' 'gen' 'gen 0' 'gen 4097' 'gen 4 --budget'; do
    # The words are split at their blanks.
    echo "$answered" | "$program" $words >"$folder/out" 2>&1; code=$?
    ended "the words '$words'" 2 "$usage"
done
"$program" ask <&- >"$folder/out" 2>&1; code=$?
ended 'a closed input' 4 ''
"$program" gen 4 --budget 34 <&- >"$folder/out" 2>&1; code=$?
ended 'a generated text beyond the budget' 1 'QUERIES 8
T 0
NIL 0
TOO-LARGE 8
ROWS 0'
if [ -w /dev/full ]; then
    : >"$folder/out"
    echo "$answered" | "$program" ask >/dev/full 2>"$folder/out"; code=$?
    ended 'a full output' 5 ''
    "$program" >/dev/full 2>"$folder/out"; code=$?
    ended 'a full output for the usage line' 5 ''
fi
[ "$failed" = 0 ] && echo 'statuses: as the manual says'
exit "$failed"
