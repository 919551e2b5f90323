# A copy of the kit in which scripts replace tools. Read by `. tests/lib/kit.sh`.
# shellcheck shell=sh

# Makes the copy, of links except for `rt`. Use: copy_kit DIRECTORY
copy_kit() {
    kit=$(dirname "$(rt doc)")
    rm -rf "$1"
    mkdir -p "$1/bin" "$1/toolchain/bin"
    ln -s "$kit"/* "$1/" 2> /dev/null || true
    ln -s "$kit"/bin/* "$1/bin/"
    ln -s "$kit"/toolchain/lib "$1/toolchain/lib"
    ln -s "$kit"/toolchain/bin/* "$1/toolchain/bin/"
    # python looks for its modules where the real file is
    rm "$1/bin/rt" "$1/bin/rtlib.py"
    cp "$kit/bin/rt" "$kit/bin/rtlib.py" "$1/bin/"
}

# Replaces a tool by a script, which is standard input; the script names the kit's own tool as $tool. Use: replace_tool DIRECTORY TOOL <
# SCRIPT
replace_tool() {
    rm "$1/toolchain/bin/$2"
    { echo '#!/bin/sh' && echo "tool='$kit/toolchain/bin/$2'" && cat; } > "$1/toolchain/bin/$2"
    chmod +x "$1/toolchain/bin/$2"
}

# Makes the copy keep the program that it links, as FILE, optimised and compiled without AddressSanitizer: it runs with a preloaded shim,
# like one of the gate, and nearly as fast. (`rt try` runs a program in a directory of its own, and removes it.)
# Use: keep_plain_program COPY FILE
keep_plain_program() {
    replace_tool "$1" clang << 'CLANG'
for word; do
    shift
    case $word in -O?) word=-O2 ;; esac
    [ "$word" = -fsanitize=address ] || set -- "$@" "$word"
done
exec "$tool" "$@"
CLANG
    replace_tool "$1" ld.lld << LINKER
for word; do
    shift
    # (an archive that is linked whole is AddressSanitizer's)
    case \$word in --whole-archive) whole=yes ;; esac
    [ "\$whole" = yes ] || set -- "\$@" "\$word"
    case \$word in --no-whole-archive) whole=no ;; esac
    [ "\$last" != -o ] || made=\$word
    last=\$word
done
"\$tool" "\$@" && cp "\$made" "$2"
LINKER
}

# The same for two programs of one module, both optimised: DIRECTORY/NAME with AddressSanitizer, and DIRECTORY/plain without. Beside them is
# what the compiler passes to its clang: the whole program as DIRECTORY/module.bc, and the flags, one per line, as DIRECTORY/flags.
# Use: keep_both_programs COPY DIRECTORY NAME
keep_both_programs() {
    replace_tool "$1" clang << CLANG
case " \$* " in *" -fsanitize=address "*) ;; *) exec "\$tool" "\$@" ;; esac
cp module.bc "$2/module.bc"
printf '%s\n' "\$@" > "$2/flags"
for word; do
    shift
    case \$word in -O?) word=-O2 ;; esac
    set -- "\$@" "\$word"
done
"\$tool" "\$@" &
for word; do
    shift
    case \$word in -fsanitize=address) continue ;; module.o) word=$2/plain.o ;; esac
    set -- "\$@" "\$word"
done
"\$tool" "\$@" || exit
wait "\$!" && cp module.o "$2/checked.o"
CLANG
    replace_tool "$1" ld.lld << LINKER
"\$tool" "\$@" || exit
for word; do
    shift
    case \$word in --whole-archive) whole=yes ;; esac
    kept=\$word
    if [ "\$last" = -o ]; then
        made=\$word kept=$2/plain
    elif cmp -s "\$word" "$2/checked.o"; then
        kept=$2/plain.o
    fi
    [ "\$whole" = yes ] || set -- "\$@" "\$kept"
    case \$word in --no-whole-archive) whole=no ;; esac
    last=\$word
done
cp "\$made" "$2/$3" && "\$tool" "\$@"
LINKER
}

# Makes the copy check nothing besides what it compiles: it gives no hints of names that a check will refuse. Use: check_nothing COPY
check_nothing() {
    ln -sf /bin/true "$1/bin/rattle"
}

# Makes the copy's clang keep what the compiler passes to it: the whole program as DIRECTORY/module.bc, and the flags, one per line, as
# DIRECTORY/flags. Use: keep_module COPY DIRECTORY
keep_module() {
    replace_tool "$1" clang << CLANG
if [ -f module.bc ]; then
    cp module.bc "$2/module.bc"
    printf '%s\n' "\$@" > "$2/flags"
fi
exec "\$tool" "\$@"
CLANG
}
