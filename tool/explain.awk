# Prints the lines of kinds.txt for the kind WANTED of the environment, or for all; status 1 where there is none.
BEGIN { FS = "\t"; wanted = toupper(ENVIRON["WANTED"]) }
/^#/ { next }
wanted == "" || wanted == $1 || $1 ~ (" " wanted "$") {
    printf "%s: %s\n", $1, $2
    if ($3 != "") printf "    %s\n", $3
    found = 1
}
END { exit !found }
