#!/usr/bin/env bash
# Packs the program for people without the kit: crdx-VERSION-x86_64-linux.tar.gz, crdx_VERSION_amd64.deb, and the checksums of both.
# Usage: tools/package.sh                      where the tree is clean and .ci/run has passed on its commit; into out/package
#        tools/package.sh --test LOG FOLDER    for tests: asks for neither, with a log of `rt ci`; into FOLDER
set -euo pipefail
export LC_ALL=C
umask 022

stop() {
    echo "package.sh: $1" >&2
    exit 1
}

suffix='' log=out/gate.txt folder=out/package
if [ $# -eq 3 ] && [ "$1" = --test ]; then
    # a package for tests has a version of its own, before that of the release, so that it is never taken for one
    suffix='~test' log=$(realpath "$2") folder=$(realpath -m "$3")
elif [ $# -gt 0 ]; then
    stop 'usage: tools/package.sh [--test LOG FOLDER]'
fi
cd "$(dirname "$0")/.."
program=crates/crdx_cli/out/crdx_cli
[ -x "$program" ] || stop "there is no program $program: .ci/run builds it"
for tool in dpkg-deb readelf; do
    command -v "$tool" >/dev/null || stop "the command $tool is missing: it is in Debian's packages dpkg and binutils"
done

# asks that what is packed has passed the gate: .ci/run notes the commit and the checksum of the program where the tree is clean
ask() {
    local changes
    changes=$(git status --porcelain)
    [ -z "$changes" ] || stop 'the tree is not clean: commit, or put back, what git status names'
    grep -qsx "commit $(git rev-parse HEAD)" "$log" || stop "$log notes no green gate of this commit: run .ci/run"
    grep -qx "$(sha256sum "$program")" "$log" || stop "$program is not what the gate has left: run .ci/run"
}

# the version of the C library that the program needs, which may need no other library
c_library() {
    local others
    others=$(readelf -d "$program" | sed -n 's/.*(NEEDED).*\[\(.*\)\]/\1/p' | grep -vx 'libc\.so\.6\|ld-linux-x86-64\.so\.2' || true)
    [ -z "$others" ] || stop "the program needs more than the C library: ${others//$'\n'/, }"
    readelf -V "$program" | grep -o 'GLIBC_[0-9.]*' | sort -uV | tail -n 1 | cut -d _ -f 2
}

[ -n "$suffix" ] || ask
version=$("$program" --version)
version=${version#crdx }$suffix
name=crdx-$version-x86_64-linux
glibc=$(c_library)
commit=$(git rev-parse HEAD)
SOURCE_DATE_EPOCH=$(git log -1 --format=%ct)
export SOURCE_DATE_EPOCH
stage=$(mktemp -d)
trap 'rm -rf "$stage"' EXIT
tree=$stage/$name root=$stage/root

# the folder that the .tar.gz has
fill_tree() {
    install -D -m 755 "$program" "$tree/crdx"
    install -m 755 tools/{crdx-relax,kubectl-crdx,kubectl_complete-crdx} "$tree"
    install -D -m 644 -t "$tree/crdx_plugin" tools/crdx_plugin/*.py
    install -D -m 644 -t "$tree/crdx_schemas" tools/crdx_schemas/*.py
    tools/manual.py "$program" "$tree"
    install -m 644 LICENSE CHANGELOG.md "$tree"
    echo "$commit" >"$tree/COMMIT"
    # of each crate that it is proved, what was tried, and how much passed
    grep -E '^(logic=|rt: .* proved$|rt: .* is kept: |rt: ok; |[0-9]+ passed, )' "$log" >"$tree/VERDICT" || stop "$log has no verdict"
    sums_of "$tree" sha256sum >"$stage/sums"
    mv "$stage/sums" "$tree/SHA256SUMS"
}

# sums_of FOLDER COMMAND: the checksums of the files in a folder, by their names
sums_of() (
    cd "$1"
    find . -type f -printf '%P\0' | sort -z | xargs -0 "$2"
)

# the same files at the places where Debian has them
fill_root() {
    local module
    place 755 crdx usr/bin/crdx
    place 755 crdx-relax usr/bin/crdx-relax
    place 755 kubectl-crdx usr/bin/kubectl-crdx
    place 755 kubectl_complete-crdx usr/bin/kubectl_complete-crdx
    for module in "$tree"/crdx_{plugin,schemas}/*; do
        place 644 "${module#"$tree/"}" "usr/share/crdx/${module#"$tree/"}"
    done
    place 644 crdx.1 usr/share/man/man1/crdx.1
    place 644 kubectl-crdx.1 usr/share/man/man1/kubectl-crdx.1
    place 644 completions/crdx.bash usr/share/bash-completion/completions/crdx
    place 644 completions/_crdx usr/share/zsh/vendor-completions/_crdx
    place 644 completions/crdx.fish usr/share/fish/vendor_completions.d/crdx.fish
    place 644 LICENSE usr/share/doc/crdx/copyright
    place 644 CHANGELOG.md usr/share/doc/crdx/changelog
    place 644 VERDICT usr/share/doc/crdx/VERDICT
    place 644 COMMIT usr/share/doc/crdx/COMMIT
    gzip -9n "$root"/usr/share/man/man1/* "$root/usr/share/doc/crdx/changelog"
    sums_of "$root" md5sum >"$stage/sums"
    mkdir "$root/DEBIAN"
    mv "$stage/sums" "$root/DEBIAN/md5sums"
    control >"$root/DEBIAN/control"
}

place() { install -D -m "$1" "$tree/$2" "$root/$3"; }

control() {
    cat <<CONTROL
Package: crdx
Version: $version
Architecture: amd64
Maintainer: $(git log -1 --format='%an <%ae>')
Installed-Size: $(find "$root/usr" -type f -printf '%s\n' | awk '{ size += int(($1 + 1023) / 1024) } END { print size }')
Depends: libc6 (>= $glibc)
Recommends: python3
Section: utils
Priority: optional
Description: $("$program" -h | head -n 1)
$("$program" --help | sed -n '3,/^$/ { /./ s/^/ /p }')
CONTROL
}

# both archives are the same for the same commit and program: names in order, no owner, and the time of the commit
fill_tree
tar --sort=name --format=gnu --owner=0 --group=0 --numeric-owner --mtime="@$SOURCE_DATE_EPOCH" -C "$stage" -c "$name" | gzip -9n >"$stage/$name.tar.gz"
fill_root
dpkg-deb --root-owner-group -Zxz --build "$root" "$stage/crdx_${version}_amd64.deb" >/dev/null

mkdir -p "$folder"
mv "$stage"/*.tar.gz "$stage"/*.deb "$folder"
cd "$folder"
sha256sum "$name.tar.gz" "crdx_${version}_amd64.deb" | tee SHA256SUMS
