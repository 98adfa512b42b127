#!/usr/bin/env bash
# Packs the program that the gate has left, unpacks both packages into empty folders, and runs what they have with no kit on the path.
# Then it asks that tools/package.sh without --test refuses what has not passed the gate, and packs what has.
# Usage: tools/test_package.sh [LOG], where LOG is what `rt ci` printed; without it a made-up log serves
set -euo pipefail
export LC_ALL=C
log=${1:+$(realpath -- "$1")}
cd "$(dirname "$0")/.."

stop() {
    echo "test_package.sh: $1" >&2
    exit 1
}

folder=$(mktemp -d)
trap 'rm -rf "$folder"' EXIT
mapfile -t crates < <(sed -n 's/^\([a-z0-9_]\+\).*:.*/\1/p' crates.txt)
if [ -z "$log" ]; then
    log=$folder/log
    { echo 'fn jtree::read: proved' && printf 'rt: %s proved\n' "${crates[@]}" && echo '1 passed, 0 failed'; } >"$log"
fi

# (the variables that git sets for its hooks would lead to another repository)
unset "${!GIT_@}"

# a repository of its own with what is packed, so that its tree is clean or not as a test wants it
program=crates/crdx_cli/out/crdx_cli
copy=$folder/repository
mkdir "$copy"
cp --parents .gitignore LICENSE CHANGELOG.md tools/{package.sh,manual.py,crdx-relax,kubectl-crdx,kubectl_complete-crdx} tools/crdx_{plugin,schemas}/*.py "$program" "$copy"
commit() { git -C "$copy" -c core.hooksPath=/dev/null -c user.name=Test -c user.email=test@example.org commit -q --allow-empty -m "$1"; }
git init -q "$copy"
git -C "$copy" add .
commit 'What is packed'

# both packages, and once more the same
"$copy/tools/package.sh" --test "$log" "$folder/packages" >"$folder/said"
"$copy/tools/package.sh" --test "$log" "$folder/again" >"$folder/said"
diff -r "$folder/packages" "$folder/again" || stop 'packing twice gives other packages'
version=$("$program" --version | cut -d ' ' -f 2)
name=crdx-$version~test-x86_64-linux.tar.gz
debian=crdx_$version~test_amd64.deb
[ "$(cd "$folder/packages" && echo *)" = "SHA256SUMS $name $debian" ] || stop "other packages: $(ls "$folder/packages")"
(cd "$folder/packages" && sha256sum --quiet -c SHA256SUMS)

# unpacked, each in an empty folder
mkdir "$folder"/{tar,root}
tar -xzf "$folder/packages/$name" -C "$folder/tar"
dpkg -x "$folder/packages/$debian" "$folder/root"
dpkg-deb -e "$folder/packages/$debian" "$folder/control"
tree=$folder/tar/${name%.tar.gz} root=$folder/root
(cd "$tree" && sha256sum --quiet -c SHA256SUMS)
(cd "$root" && md5sum --quiet -c "$folder/control/md5sums")

# the two have the same files, and no others
places=$folder/places
cat >"$places" <<'PLACES'
crdx usr/bin/crdx
crdx-relax usr/bin/crdx-relax
kubectl-crdx usr/bin/kubectl-crdx
kubectl_complete-crdx usr/bin/kubectl_complete-crdx
crdx.1 usr/share/man/man1/crdx.1.gz
kubectl-crdx.1 usr/share/man/man1/kubectl-crdx.1.gz
completions/crdx.bash usr/share/bash-completion/completions/crdx
completions/_crdx usr/share/zsh/vendor-completions/_crdx
completions/crdx.fish usr/share/fish/vendor_completions.d/crdx.fish
LICENSE usr/share/doc/crdx/copyright
CHANGELOG.md usr/share/doc/crdx/changelog.gz
VERDICT usr/share/doc/crdx/VERDICT
COMMIT usr/share/doc/crdx/COMMIT
PLACES
for module in tools/crdx_{plugin,schemas}/*.py; do
    echo "${module#tools/} usr/share/crdx/${module#tools/}"
done >>"$places"
while read -r ours debians; do
    zcat -f "$root/$debians" | cmp - "$tree/$ours" || stop "$debians is not $ours"
done <"$places"
files_of() { (cd "$1" && find . -type f -printf '%P\n' | sort); }
{ cut -d ' ' -f 1 "$places" && echo SHA256SUMS; } | sort | diff - <(files_of "$tree") || stop 'other files in the .tar.gz'
cut -d ' ' -f 2 "$places" | sort | diff - <(files_of "$root") || stop 'other files in the .deb'

# what is in them
cmp "$tree/crdx" "$program"
for tool in crdx-relax kubectl-crdx kubectl_complete-crdx; do cmp "$tree/$tool" "tools/$tool"; done
for module in tools/crdx_{plugin,schemas}/*.py; do cmp "$tree/${module#tools/}" "$module"; done
cmp "$tree/LICENSE" LICENSE
[ "$(cat "$tree/COMMIT")" = "$(git -C "$copy" rev-parse HEAD)" ] || stop 'COMMIT names another commit'
[ "$(tail -n 1 "$tree/VERDICT")" = "$(tail -n 1 "$log")" ] || stop 'VERDICT has another last line than the log'
for crate in "${crates[@]}"; do
    grep -qE "^rt: $crate (proved|is kept: .*)\$" "$tree/VERDICT" || stop "VERDICT says nothing of $crate"
done
! grep -q '^fn ' "$tree/VERDICT" || stop 'VERDICT has lines of single functions'
tools/test_manual.py "$tree/crdx" "$tree"

# they run where the path has Python alone
mkdir "$folder/path"
ln -s "$(python3 -c 'import sys; print(sys.executable)')" "$folder/path/python3"
alone() { env -i PATH="$folder/path" "$@"; }
for place in "$tree" "$root/usr/bin"; do
    [ "$(alone "$place/crdx" --version)" = "crdx $version" ] || stop "$place/crdx: another version"
    [ "$(alone "$place/crdx" check examples/issuer/crd.json v1)" = structural ] || stop "$place/crdx: check"
    alone "$place/crdx" sample examples/widget/crd.json v1 --pools examples/widget/pools.json --limit 4 2>"$folder/said" |
        diff examples/widget/samples-of-4-nodes.txt - || stop "$place/crdx: sample"
    alone "$place/crdx-relax" examples/certificate/crd.json 2>"$folder/said" | diff examples/certificate/relaxed.json - || stop "$place/crdx-relax"
    [ "$(alone "$place/kubectl-crdx" check -f examples/certificate/crd.json 2>"$folder/said")" = structural ] || stop "$place/kubectl-crdx"
    [ "$(alone "$place/kubectl_complete-crdx" cov)" = $'cover\tLists, for each field, the first sample that has it\n:4' ] || stop "$place/kubectl_complete-crdx"
done

# refuses NAME LINE: whether nothing is packed, with this line on standard error
refuses() {
    ! "$copy/tools/package.sh" >"$folder/said" 2>&1 || stop "$1: was packed"
    grep -qF "package.sh: $2" "$folder/said" || stop "$1: $(cat "$folder/said")"
    [ ! -e "$copy/out/package" ] || stop "$1: there is a package"
}

gate=$copy/out/gate.txt
passed() { { echo "commit $(git -C "$copy" rev-parse HEAD)" && (cd "$copy" && sha256sum "$program") && cat "$log"; } >"$gate"; }
mkdir "$copy/out"
refuses 'no gate' "out/gate.txt notes no green gate of this commit"
passed
commit 'Another commit'
refuses 'the gate of another commit' "out/gate.txt notes no green gate of this commit"
passed
echo >>"$copy/$program"
refuses 'another program' "$program is not what the gate has left"
cp "$program" "$copy/$program"
echo change >>"$copy/LICENSE"
refuses 'a changed tree' 'the tree is not clean'
git -C "$copy" checkout -q LICENSE
echo new >"$copy/tools/new"
refuses 'a new file' 'the tree is not clean'
rm "$copy/tools/new"
"$copy/tools/package.sh" >"$folder/said"
[ "$(cd "$copy/out/package" && echo *)" = "SHA256SUMS crdx-$version-x86_64-linux.tar.gz crdx_${version}_amd64.deb" ] || stop 'a release: other packages'
echo 'test_package.sh: both packages have the same files, which run with no kit, and nothing is packed that has not passed the gate'
