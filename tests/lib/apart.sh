# A crate outside the gate: the names of its files end in .txt, since a gate refuses sources that are in none of its crates. In a copy, with
# the crates below it, it is a crate like any other. Read by `. tests/lib/apart.sh`, at the top of the repository.
# shellcheck shell=bash

# The lines of crates.txt for a crate and all crates below it, and the crate's own. Use: lines_with LINE
lines_with() {
    awk -F: -v first="${1%%:*}" '
        /^[a-z]/ { all[$1] = $0; below[$1] = $2 }
        END {
            wanted[count = 1] = first
            for (place = 1; place <= count; place++) {
                number = split(below[wanted[place]], names, " ")
                for (i = 1; i <= number; i++)
                    if (names[i] in all && !(names[i] in seen)) { seen[names[i]]; wanted[++count] = names[i] }
                print all[wanted[place]]
            }
        }' crates.txt <(echo "$1")
}

# The directories of the crates below this crate. Use: folders_below LINE
folders_below() {
    lines_with "$1" | sed -n 's/^\([a-z0-9_]*\):.*/crates\/\1/p' | grep -v -x "crates/${1%%:*}"
}

# Puts a crate of this line, whose files are in a directory, and the crates below it, as they are in the work tree, into a copy.
# Use: copy_crate LINE DIRECTORY COPY
copy_crate() {
    lines_with "$1" > "$3/crates.txt"
    cp HANDLES "$3"
    folders_below "$1" | tar --exclude=must-fail --exclude=out -T - -cf - | tar -xf - -C "$3"
    (cd "$2" && find . -name '*.txt') | while IFS= read -r file; do
        install -D -m 644 "$2/$file" "$3/crates/${1%%:*}/${file%.txt}"
    done
    git init -q "$3"
}
