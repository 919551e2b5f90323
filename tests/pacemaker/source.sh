#!/bin/sh
# Fetches Pacemaker's source package, of the installed version, and builds in DIR the parts of its executor's suite that are in no Debian
# package: `cts-exec` with its paths filled in, and `cts-exec-helper`, which is built with the source's own headers. apt's lists are kept in
# DIR, so nothing of the system is changed. Ends with 77 if the source is not available.
# Use: source.sh DIR
set -eu
cd "$1"
version=$(dpkg-query -W -f '${source:Version}' pacemaker)
release=$(. /etc/os-release && echo "$VERSION_CODENAME")
mkdir -p lists/partial
for suite in "$release debian" "$release-security debian-security"; do
    # shellcheck disable=SC2086 # two words
    set -- $suite
    echo "deb-src http://deb.debian.org/$2 $1 main"
done > sources.list
of_here() {
    apt-get -q -o Dir::Etc::SourceList="$PWD/sources.list" -o Dir::Etc::SourceParts=- -o Dir::State::Lists="$PWD/lists" \
        -o Dir::Cache::PkgCache= -o Dir::Cache::SrcPkgCache= -o APT::Sandbox::User=root "$@"
}
if ! { of_here update && of_here source --download-only "pacemaker=$version"; } > apt.log 2>&1; then
    echo "source.sh: skipped: the source package of pacemaker $version can't be fetched" >&2
    exit 77
fi
mkdir -p source
tar -xf pacemaker_*.orig.tar.* -C source --strip-components 1

sed -e "s|@PYTHON@|/usr/bin/python3|; s|@abs_top_builddir@|/nonexistent|; s|@sbindir@|/usr/sbin|; s|@PC_NAME_GNUTLS@||" \
    -e "s|@CRM_DAEMON_DIR@|/usr/lib/pacemaker|; s|@OCF_RA_INSTALL_DIR@|/usr/lib/ocf/resource.d|g; s|@localstatedir@|/var|" \
    -e "s|@CRM_RSCTMP_DIR@|/run/resource-agents|" source/cts/cts-exec.in > cts-exec
# it ends leftovers of earlier tests by name: here each test has namespaces of its own
sed -i 's|^    if not process_names:$|    if True:|' cts-exec
chmod 755 cts-exec

# the findings of the source's configure, as far as the helper's headers need them
cat > config.h <<'CONFIG'
#define HAVE_ALPHASORT 1
#define HAVE_DAEMON 1
#define HAVE_DECL_CLOCK_MONOTONIC 1
#define HAVE_GNUTLS_GNUTLS_H 1
#define HAVE_SCANDIR 1
#define HAVE_SETENV 1
#define HAVE_STDINT_H 1
#define HAVE_STRCHRNUL 1
#define HAVE_STRERROR 1
#define HAVE_STRNDUP 1
#define HAVE_STRNLEN 1
#define HAVE_UNSETENV 1
#define HAVE_UUID_UUID_H 1
#define PACKAGE "pacemaker"
CONFIG
# shellcheck disable=SC2046 # words
cc -w -O1 -D_GNU_SOURCE -I. -Isource/include -I/usr/include/pacemaker $(pkg-config --cflags glib-2.0 libxml-2.0 libqb) \
    source/daemons/execd/cts-exec-helper.c -o cts-exec-helper -lcrmcommon -lcrmservice -llrmd -lpe_status -lpacemaker -lcib \
    $(pkg-config --libs glib-2.0 libxml-2.0 libqb)
