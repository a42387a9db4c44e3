#!/bin/sh
# deep.sh PROGRAM: data that nest as deep as the room of a query lets them be are answered within a stack of 8 MB.
CDPATH='' cd -- "$(dirname -- "$0")/.." || exit 1
ulimit -s 8192 || exit 1
got=$(python3 bench/queries.py deepest 45 | "$1" ask)
if [ "$got" = '47:1 T' ]; then
    echo "deep: answered within 8 MB of stack"
else
    echo "deep: $got"
    exit 1
fi
