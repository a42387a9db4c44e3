# Completions of selvdrik for bash: source this file, or put it where bash-completion looks.

# The kinds that --explain tells of.
_selvdrik_kinds() {
    echo BAD-ARGUMENT STAR-NOT-ALLOWED UNKNOWN-TYPE CLASS-TYPE NAME-TWICE CODE-BODY BAD-DEFINITION RECURSIVE-TYPE \
        ARGUMENT-COUNT NO-LITERAL FUNCTION-LIST FLOAT-RANGE COMPLEX-PART MEMBER-OBJECT BAD-BOUND NUMBER-TOO-WIDE \
        TOO-DEEP TOO-MANY-NODES TOO-LARGE NOT-UTF8 BAD-TOKEN STRAY-CLOSE BAD-DOT ZERO-DENOMINATOR LABEL UNCLOSED \
        TOO-LONG
}

_selvdrik() {
    local word=${COMP_WORDS[COMP_CWORD]} before=${COMP_WORDS[COMP_CWORD - 1]}
    COMPREPLY=()
    case $before in
        --explain)
            mapfile -t COMPREPLY < <(compgen -W "$(_selvdrik_kinds)" -- "${word^^}")
            return ;;
        --budget) return ;;
    esac
    case $word in
        -*)
            mapfile -t COMPREPLY < <(compgen -W "--budget --expect --explain --github --quiet --no-build --help --version" \
                -- "$word") ;;
        *)
            [ "$COMP_CWORD" = 1 ] && mapfile -t COMPREPLY < <(compgen -W "ask gen" -- "$word")
            compopt -o filenames 2>/dev/null
            local files
            mapfile -t files < <(compgen -f -X '!*.@(lisp|lsp|cl|asd)' -- "$word"; compgen -d -- "$word")
            COMPREPLY+=("${files[@]}") ;;
    esac
}

shopt -s extglob
complete -F _selvdrik selvdrik
