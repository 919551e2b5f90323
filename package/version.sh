# The version and the changelog of a package, from the commit that it is built from. Read by `. package/version.sh`, at the top of the
# repository.
# shellcheck shell=bash

# Prints the version of the program in a tree. Use: program_version COMMIT
program_version() {
    git show "$1:crates/exec_options/src/texts.rt" | sed -n 's/^pub const VERSION: &str = "\(.*\)";$/\1/p'
}

# Prints the versions of the releases up to a commit. Use: releases COMMIT
releases() {
    git tag --list 'v[0-9]*' --merged "$1" | sed 's/^v//'
}

# Whether a version is higher than another one. Use: is_above VERSION OTHER
is_above() {
    [ "$1" != "$2" ] && [ "$(printf '%s\n' "$1" "$2" | sort --version-sort | tail -n 1)" = "$1" ]
}

# Prints the version of the program in a tree, and the number of commits up to its commit, so that a later one is an upgrade. Use:
# version_of COMMIT
version_of() {
    if [ "$(git rev-parse --is-shallow-repository)" = true ]; then
        echo "a version counts commits, and this clone has not all of them: git fetch --unshallow" >&2
        return 1
    fi
    echo "$(program_version "$1")+$(git rev-list --count "$1").$(git rev-parse --short=12 "$1")"
}

# Use: changelog_of COMMIT
changelog_of() {
    printf 'ocfexec (%s) unstable; urgency=medium\n\n  * The programs of commit %s.\n\n' "$(version_of "$1")" "$1"
    printf ' -- The Fijolzek authors <maintainers@users.noreply.fijolzek.example>  %s\n' "$(date -u -R -d "@$(git show -s --format=%ct "$1")")"
}
