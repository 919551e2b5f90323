#!/usr/bin/env bash
# Builds the Debian packages: that of the programs that the gate proved and built, with the clients, and that of the Python library
# (python_deb.sh). It prints the file of the first. out/gate has the commit at which the gate passed, and the sums of the programs; it
# refuses other programs. In the tree of a source package (source.sh) it packs the programs that debian/rules proved and built. The launcher
# of agents, which is C, is built here. Symbols are stripped if strip is installed: no instruction differs. It needs dpkg-deb, and makes the
# same packages as root or not. The packages' version is the program's version and the number of commits up to the one that they are built
# from, so that a later commit is an upgrade. Use: deb.sh [DIRECTORY], where the packages are put
set -euo pipefail
cd "$(dirname "$0")/.."
into=${1:-.}
passed=crates/ocfexec/out/gate
program=crates/ocfexec/out/ocfexec
agents=crates/ocf_agents/out/ocf_agents
. package/version.sh

if [ -f debian/commit ]; then
    debian=debian
    commit=$(cat debian/commit)
    version=$(dpkg-parsechangelog -S Version)
    SOURCE_DATE_EPOCH=$(dpkg-parsechangelog -S Timestamp)
    proved="Built from the source package of commit $commit: this build proved each function of these programs"
    changelog=$(cat debian/changelog)
elif [ -f "$passed" ] && tail -n +2 "$passed" | sha256sum --quiet -c - > /dev/null 2>&1; then
    debian=package/debian
    commit=$(head -n 1 "$passed")
    version=$(version_of "$commit")
    SOURCE_DATE_EPOCH=$(git show -s --format=%ct "$commit")
    proved="The gate passed at commit $commit: each function of these programs is proved"
    changelog=$(changelog_of "$commit")
else
    echo "deb.sh: these programs have not passed the gate: run make test on a committed tree first" >&2
    exit 1
fi
export SOURCE_DATE_EPOCH
root=$(mktemp -d)
trap 'rm -rf "$root"' EXIT
doc=$root/usr/share/doc/ocfexec

install -D -m 755 "$program" "$root/usr/bin/ocfexec"
install -D -m 755 "$agents" "$root/usr/lib/ocf/resource.d/ocfexec/Dummy"
launcher/build.sh "$root/usr/bin/ocfexec-run-agent"
if command -v strip > /dev/null; then
    strip "$root/usr/bin/ocfexec" "$root/usr/bin/ocfexec-run-agent" "$root/usr/lib/ocf/resource.d/ocfexec/Dummy"
fi
install -D -m 755 examples/ocfctl.py "$root/usr/bin/ocfctl"
sed -i '1s#.*#\#!/usr/bin/python3#' "$root/usr/bin/ocfctl"
ln -s Dummy "$root/usr/lib/ocf/resource.d/ocfexec/Stateful"
for page in ocfexec ocfctl ocfexec-client; do
    install -D -m 644 "docs/$page.8" "$root/usr/share/man/man8/$page.8"
    gzip -9n "$root/usr/share/man/man8/$page.8"
done
mkdir -p "$root/usr/libexec/ocfexec" "$doc/docs" "$doc/examples"
install -m 755 examples/client.py examples/client.sh examples/with-*.sh "$root/usr/libexec/ocfexec"
read -r -a modules <<< "$(make --silent --no-print-directory modules)"
install -m 644 "${modules[@]}" "$root/usr/libexec/ocfexec"
# the client has a library of its own version beside it, whichever version of python3-ocfexec is installed, if any
install -d "$root/usr/libexec/ocfexec/ocfexec"
install -m 644 python/ocfexec/*.py python/ocfexec/py.typed "$root/usr/libexec/ocfexec/ocfexec"
install -m 644 package/README.md CHANGELOG.md "$doc"
install -m 644 docs/{GUIDE,CLIENTS,CONTROL,FORMAT,CLUSTER}.md docs/{protocol,resources}.schema.json "$doc/docs"
cp -R examples/*.sh examples/*.py examples/*.jsonl examples/*.service examples/resource.d examples/cluster examples/go "$doc/examples"
# the unit of this package: with its own paths, and the executor's options of the client from a file that an administrator keeps
mkdir -p "$root/lib/systemd/system" "$root/etc/default" "$root/etc/ocfexec"
sed -e 's#/usr/local/share/doc/ocfexec/#/usr/libexec/ocfexec/#' -e 's#/usr/local/bin/#/usr/bin/#' \
    -e 's#^\[Service\]#&\nEnvironmentFile=/etc/default/ocfexec#' -e '/^ .*serve --journal/s#$# $OCFEXEC_OPTIONS#' \
    examples/ocfexec.service > "$root/lib/systemd/system/ocfexec.service"
cat > "$root/etc/default/ocfexec" << 'OPTIONS'
# Further options of ocfexec serve in ocfexec.service, such as --tidy-at 0. See ocfexec(8).
#
# --via /usr/libexec/ocfexec/with-scope.sh runs each start in a scope of its own, so that each service has its own control group:
# `systemctl status 'ocf-web-*'` shows it, and no service counts as left over from ocfexec.service.
OCFEXEC_OPTIONS=
OPTIONS
chmod 644 "$root/lib/systemd/system/ocfexec.service" "$root/etc/default/ocfexec"
install -D -m 644 package/ocfexec.logrotate "$root/etc/logrotate.d/ocfexec"
for shell in bash-completion/completions/ocfexec:bash zsh/vendor-completions/_ocfexec:zsh fish/vendor_completions.d/ocfexec.fish:fish; do
    mkdir -p "$(dirname "$root/usr/share/${shell%:*}")"
    package/completions.sh "$program" "${shell#*:}" > "$root/usr/share/${shell%:*}"
done
install -m 644 package/ocfctl.bash "$root/usr/share/bash-completion/completions/ocfctl"
install -m 644 "$debian/copyright" "$doc/copyright"
printf '%s, and docs/PROVED.md there says what.\n' "$proved" > "$doc/README.gate"
echo "$changelog" | gzip -9n > "$doc/changelog.gz"

mkdir -p "$root/usr/share/lintian/overrides"
printf '%s\n' "# a removal ends the unit by a signal that leaves services running, for which there is no deb-systemd-invoke" \
    "ocfexec: maintainer-script-calls-systemctl *" \
    "# a program that only ocfexec runs, with each agent; static, since that one starts sooner" \
    "ocfexec: statically-linked-binary [usr/bin/ocfexec-run-agent]" "ocfexec: no-manual-page [usr/bin/ocfexec-run-agent]" \
    > "$root/usr/share/lintian/overrides/ocfexec"
mkdir "$root/DEBIAN" && install -m 755 package/postinst package/prerm package/postrm "$root/DEBIAN"
printf '%s\n' /etc/default/ocfexec /etc/logrotate.d/ocfexec > "$root/DEBIAN/conffiles"
(cd "$root" && find . -path ./DEBIAN -prune -o -type f -printf '%P\0' | sort -z | xargs -0 md5sum) > "$root/DEBIAN/md5sums"
# the fields of the package, and those from its source; the programs are linked only with the C library
{
    awk '!length { exit } /^(Maintainer|Section|Priority):/' "$debian/control"
    awk -v version="$version" -v size="$(du -sk "$root" | cut -f 1)" '
        /^Package:/ { is_package = $2 == "ocfexec" }
        is_package && /^Description:/ { print "Version: " version "\nInstalled-Size: " size }
        is_package && NF' "$debian/control" | sed 's/\${shlibs:Depends}/libc6 (>= 2.34)/'
} > "$root/DEBIAN/control"
find "$root" -type d -exec chmod 755 {} +
file=$into/ocfexec_${version}_$(dpkg --print-architecture).deb
dpkg-deb --root-owner-group --build "$root" "$file" > /dev/null
package/python_deb.sh "$version" "$debian" "$into" <<< "$changelog" > /dev/null
echo "$file"
