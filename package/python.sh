#!/bin/sh
# Installs the Python package ocfexec into PREFIX/lib/python3/dist-packages, where the installed clients find it. If the python3 of PATH, or
# the system's, looks for packages in another directory of PREFIX, as Debian's in lib/python3.11/dist-packages, a link there leads to it.
# Use: python.sh ROOT PREFIX, with a directory ROOT before all paths, which may be empty
set -eu
cd "$(dirname "$0")/.."
root=$1
prefix=${2%/}
into=$prefix/lib/python3/dist-packages
install -d "$root$into/ocfexec"
install -m 644 python/ocfexec/*.py python/ocfexec/py.typed "$root$into/ocfexec"
is_found=
for python in python3 /usr/bin/python3; do
    folders=$("$python" -c 'import site; print(*site.getsitepackages())' 2> /dev/null) || continue
    case " $folders " in *" $into "*) is_found=yes && continue ;; esac
    for folder in $folders; do
        case $folder in
        "$prefix"/lib/*)
            is_found=yes
            install -d "$root$folder"
            ln -sfnr "$root$into/ocfexec" "$root$folder/ocfexec"
            ;;
        esac
    done
done
[ -n "$is_found" ] || echo "python.sh: no python3 looks for packages below $prefix: set PYTHONPATH=$into"
