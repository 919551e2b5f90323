#!/usr/bin/env bash
# Prints the completions of the program's arguments for a shell. Its subcommands, its options and their descriptions are read from its own
# help, so that there is only one table of them. While a line is completed, the ids of resources are asked of the program, and the agents
# are looked for below their root.
# Use: completions.sh PROGRAM bash|zsh|fish
set -euo pipefail
program=$1
shell=$2

# Prints each subcommand on a line: its name and its description, separated by a tab.
subcommands() {
    "$program" --help | awk '/^Commands:/ { on = 1; next } /^$/ { on = 0 } on && $1 != "help" {
        name = $1; sub(/^ *[^ ]+ +/, ""); print name "\t" $0 }'
}

# Prints the names of the subcommands on one line.
names() {
    subcommands | cut -f 1 | tr '\n' ' '
}

# Prints each option of a subcommand on a line: its name, its value or a dash, and its description, separated by tabs.
options() {
    "$program" "$1" --help | awk '/^Options:/ { on = 1; next } /^$/ { on = 0 } on && /^ *(-., )?--/ {
        sub(/^ *(-., )?/, ""); name = $1; value = $2 ~ /^</ ? $2 : "-"; sub(/^[^ ]+( <[^>]*>)? */, "")
        gsub(/[<>]/, "", value); print name "\t" value "\t" $0 }'
}

# Whether a subcommand takes the id of a resource.
takes_id() {
    [ "$1" = status ] || [ "$1" = log ]
}

# Prints a function of the shell that prints the ids of the resources of the journal that the arguments name, or else of the default
# journal. The function does the same in each shell: it calls the program with only that directory, and calls no shell function of its name.
# shellcheck disable=SC2016 # the shell that completes expands it
ids_of='command ocfexec show "${place[@]}" 2>/dev/null | sed -n "1s/.*\"resources\":\[\([^]]*\)\].*/\1/p" | tr -d "\"" | tr "," "\n"'

# Prints the agents below a root, as PROVIDER:TYPE, in each shell. What begins with a dot, and the shell functions of an agent, are none.
agents_of='command find "$root/resource.d" -mindepth 2 -maxdepth 2 -perm -u+x ! -type d ! -name ".*" -printf "%P\n" 2>/dev/null | sort | tr / :'

# The default root of the agents, by the help.
root=$("$program" once --help | sed -n '/--root </{/default:/!N;s/.*\[default: \(.*\)\].*/\1/p;q}')

# The actions of an agent.
actions='start stop monitor promote demote reload-agent validate-all meta-data'

# Prints the words that an option takes, if there are few.
values_of() {
    case $1 in
        --color) echo "auto always never" ;;
        --level) echo "0 10 20" ;;
    esac
}

# The function of bash that completes the words of `once`: an agent, or after it or --of an action. A word with a colon is three words
# for bash, which completes the last one alone.
once_in_bash() {
    cat <<BASH
_ocfexec_after() {
    local at
    for ((at = 2; at < COMP_CWORD - 1; at++)); do
        [ "\${COMP_WORDS[at]}" != "\$1" ] || echo "\${COMP_WORDS[at + 1]}"
    done
}
_ocfexec_agents() {
    local root
    root=\$(_ocfexec_after --root)
    root=\${root:-$root}
    $agents_of
}
_ocfexec_once() {
    local word=\${COMP_WORDS[COMP_CWORD]} before=COMP_CWORD
    case \${COMP_WORDS[COMP_CWORD - 1]}\$word in
    :*) word=\${COMP_WORDS[COMP_CWORD - 2]}:\$word before=\$((COMP_CWORD - 2)) ;;
    *:) word=\${COMP_WORDS[COMP_CWORD - 1]}: before=\$((COMP_CWORD - 1)) ;;
    esac
    local words=" \${COMP_WORDS[*]:2:before-2} " action
    for action in $actions; do
        [[ \$words != *" \$action "* ]] || return
    done
    case \$words in
    *" --of "* | *:*) mapfile -t COMPREPLY < <(compgen -W '$actions' -- "\$word") ;;
    *)
        mapfile -t COMPREPLY < <(compgen -W "\$(_ocfexec_agents)" -- "\$word")
        [[ \$COMP_WORDBREAKS != *:* ]] || COMPREPLY=("\${COMPREPLY[@]#"\${word%"\${word##*:}"}"}")
        ;;
    esac
}
BASH
}

in_bash() {
    local name words
    echo "# Completions of ocfexec for bash."
    once_in_bash
    echo "_ocfexec_ids() {"
    echo "    local directory place=()"
    echo "    directory=\$(_ocfexec_after --journal)"
    echo "    [ -z \"\$directory\" ] || place=(--journal \"\$directory\")"
    echo "    $ids_of"
    echo "}"
    echo "_ocfexec() {"
    echo "    local word=\${COMP_WORDS[COMP_CWORD]} last=\${COMP_WORDS[COMP_CWORD - 1]}"
    echo "    case \$last in"
    echo "    --journal | --root | --logs)"
    echo "        compopt -o filenames 2>/dev/null"
    echo "        mapfile -t COMPREPLY < <(compgen -d -- \"\$word\")"
    echo "        return"
    echo "        ;;"
    echo "    --via | --log)"
    echo "        compopt -o filenames 2>/dev/null"
    echo "        mapfile -t COMPREPLY < <(compgen -f -- \"\$word\")"
    echo "        return"
    echo "        ;;"
    echo "    --of)"
    echo "        mapfile -t COMPREPLY < <(compgen -W \"\$(_ocfexec_ids)\" -- \"\$word\")"
    echo "        return"
    echo "        ;;"
    for name in --color --level; do
        echo "    $name)"
        echo "        mapfile -t COMPREPLY < <(compgen -W '$(values_of "$name")' -- \"\$word\")"
        echo "        return"
        echo "        ;;"
    done
    echo "    esac"
    echo "    case \${COMP_WORDS[1]} in"
    for name in $(names); do
        words=$(options "$name" | cut -f 1 | tr '\n' ' ' | sed 's/ $//')
        if takes_id "$name"; then
            echo "    $name)"
            echo "        case \$word in"
            echo "        -*) mapfile -t COMPREPLY < <(compgen -W '$words' -- \"\$word\") ;;"
            echo "        *) mapfile -t COMPREPLY < <(compgen -W \"\$(_ocfexec_ids)\" -- \"\$word\") ;;"
            echo "        esac"
            echo "        ;;"
        elif [ "$name" = once ]; then
            echo "    $name)"
            echo "        case \$word in"
            echo "        -*) mapfile -t COMPREPLY < <(compgen -W '$words' -- \"\$word\") ;;"
            echo "        *) _ocfexec_once ;;"
            echo "        esac"
            echo "        ;;"
        else
            echo "    $name) mapfile -t COMPREPLY < <(compgen -W '$words' -- \"\$word\") ;;"
        fi
    done
    echo "    *) mapfile -t COMPREPLY < <(compgen -W '$(names)--help --version' -- \"\$word\") ;;"
    echo "    esac"
    echo "}"
    echo "complete -F _ocfexec ocfexec"
}

# Prints a text between the quotes of zsh or fish.
quoted() {
    printf '%s' "$1" | sed "s/'/'\\\\''/g"
}

# Prints the same between the brackets of zsh's _arguments, and as one of zsh's _describe.
in_brackets() {
    quoted "$1" | sed 's/\[/\\[/g; s/\]/\\]/g; s/:/\\:/g'
}

in_zsh() {
    local name option value help
    echo "#compdef ocfexec"
    echo "_ocfexec_ids() {"
    echo "    local at place=() ids"
    echo "    at=\${words[(i)--journal]}"
    echo "    ((at >= \${#words})) || place=(--journal \$words[at+1])"
    echo "    ids=(\${(f)\"\$($ids_of)\"})"
    echo "    compadd -- \$ids"
    echo "}"
    echo "_ocfexec_once() {"
    echo "    local action at root=$root agents"
    echo "    for action in $actions; do"
    echo "        ((\${words[(Ie)\$action]} == 0 || \${words[(Ie)\$action]} >= CURRENT)) || return"
    echo "    done"
    echo "    if [[ \"\${words[1,CURRENT-1]}\" == *(:|--of\ )* ]]; then"
    echo "        compadd -- $actions"
    echo "        return"
    echo "    fi"
    echo "    at=\${words[(i)--root]}"
    echo "    ((at >= \${#words})) || root=\$words[at+1]"
    echo "    agents=(\${(f)\"\$($agents_of)\"})"
    echo "    compadd -- \$agents"
    echo "}"
    echo "_ocfexec() {"
    echo "    if ((CURRENT == 2)); then"
    echo "        local commands=("
    while IFS=$'\t' read -r name help; do
        echo "            '$name:$(in_brackets "$help")'"
    done < <(subcommands)
    echo "        )"
    echo "        _describe -t commands command commands"
    echo "        compadd -- --help --version"
    echo "        return"
    echo "    fi"
    echo "    shift words"
    echo "    ((CURRENT--))"
    echo "    case \$words[1] in"
    for name in $(names); do
        echo "    $name) _arguments \\"
        while IFS=$'\t' read -r option value help; do
            help=$(in_brackets "$help")
            case $value in
                -) echo "        '$option[$help]' \\" ;;
                DIR) echo "        '$option[$help]:$value:_files -/' \\" ;;
                FILE | PROGRAM) echo "        '$option[$help]:$value:_files' \\" ;;
                ID) echo "        '$option[$help]:$value:_ocfexec_ids' \\" ;;
                *) echo "        '$option[$help]:$value:($(values_of "$option"))' \\" ;;
            esac
        done < <(options "$name")
        ! takes_id "$name" || echo "        '*:ID:_ocfexec_ids' \\"
        [ "$name" != once ] || echo "        '*:ACTION:_ocfexec_once' \\"
        echo "        ;;"
    done
    echo "    esac"
    echo "}"
    echo "_ocfexec \"\$@\""
}

in_fish() {
    local name option value help seen
    echo "function __ocfexec_ids"
    # (fish itself reports that it knows no such command)
    echo "    command -q ocfexec; or return"
    echo "    set -l place"
    echo "    set -l words (commandline -opc)"
    echo "    if set -l at (contains -i -- --journal \$words); and test \$at -lt (count \$words)"
    echo "        set place --journal \$words[(math \$at + 1)]"
    echo "    end"
    # shellcheck disable=SC2001 # a pattern is replaced
    echo "    $(sed 's/"${place\[@\]}"/$place/' <<< "$ids_of")"
    echo "end"
    echo "function __ocfexec_once"
    echo "    set -l root $root"
    echo "    set -l words (commandline -opc)"
    echo "    if set -l at (contains -i -- --root \$words); and test \$at -lt (count \$words)"
    echo "        set root \$words[(math \$at + 1)]"
    echo "    end"
    echo "    for action in $actions"
    echo "        not contains \$action \$words; or return"
    echo "    end"
    echo "    if contains -- --of \$words; or string match -q '*:*' -- \$words"
    echo "        string split ' ' '$actions'"
    echo "    else"
    echo "        $agents_of"
    echo "    end"
    echo "end"
    echo "complete -c ocfexec -f"
    while IFS=$'\t' read -r name help; do
        seen="__fish_seen_subcommand_from $name"
        echo "complete -c ocfexec -n __fish_use_subcommand -a $name -d '$(quoted "$help")'"
        ! takes_id "$name" || echo "complete -c ocfexec -n '$seen' -a '(__ocfexec_ids)' -d resource"
        [ "$name" != once ] || echo "complete -c ocfexec -n '$seen' -a '(__ocfexec_once)'"
        while IFS=$'\t' read -r option value help; do
            help=$(quoted "$help")
            case $value in
                -) echo "complete -c ocfexec -n '$seen' -l ${option#--} -d '$help'" ;;
                DIR) echo "complete -c ocfexec -n '$seen' -l ${option#--} -x -a '(__fish_complete_directories)' -d '$help'" ;;
                FILE | PROGRAM) echo "complete -c ocfexec -n '$seen' -l ${option#--} -r -F -d '$help'" ;;
                ID) echo "complete -c ocfexec -n '$seen' -l ${option#--} -x -a '(__ocfexec_ids)' -d '$help'" ;;
                WHEN | N) echo "complete -c ocfexec -n '$seen' -l ${option#--} -x -a '$(values_of "$option")' -d '$help'" ;;
                *) echo "complete -c ocfexec -n '$seen' -l ${option#--} -x -d '$help'" ;;
            esac
        done < <(options "$name")
    done < <(subcommands)
}

case $shell in
    bash) in_bash ;;
    zsh) in_zsh ;;
    fish) in_fish ;;
    *) echo "completions.sh: bash, zsh or fish is wanted" >&2; exit 2 ;;
esac
