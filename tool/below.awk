# Reads crates.txt, which has the lowest crate first; prints the crates that subtypep_app stands on, in its order.
{ sub(/#.*/, "") }
/:/ {
    crate[++count] = name = $0
    sub(/[ \t]*:.*/, "", crate[count])
    sub(/[^:]*:/, "", name)
    libraries[count] = name
}
END {
    needed["subtypep_app"] = 1
    for (i = count; i > 0; i--)
        if (crate[i] in needed) {
            n = split(libraries[i], names, " ")
            for (j = 1; j <= n; j++) needed[names[j]] = 1
        }
    for (i = 1; i <= count; i++)
        if (crate[i] in needed && crate[i] != "subtypep_app") print crate[i]
}
