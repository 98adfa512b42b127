#!/usr/bin/env bash
# Tests of the wrapper ./crdx: when it builds, in which order and how much at once, what it says of a build, how a build ends, and that words,
# streams and the status pass through. It runs in a repository of five small crates, with an `rt` on the path that notes how it is called and
# writes a small program, and on a machine whose processors and memory are made up.
set -euo pipefail
cd "$(dirname "$0")/.."

stop() {
    echo "test_wrapper.sh: $1" >&2
    exit 1
}

folder=$(mktemp -d)
trap 'rm -rf "$folder"' EXIT
root=$folder/repository
mkdir -p "$folder/bin" "$root"/{docs,tools} "$root"/crates/{low,left,right,crdx_cli,crdx_tests}/{src,specs,proofs,must-fail}
cp crdx "$root"
cp -r tools/{jobs.sh,build_crates.py,crdx_schemas} "$root/tools"
cat >"$root/crates.txt" <<'CRATES'
# NAME: what it depends on
crdx_tests: crdx_cli low
crdx_cli backend=rattle: left low right
left: clap low  # clap is of the kit
right: low
low: json
CRATES
touch "$root"/crates/{low,left,right,crdx_cli,crdx_tests}/src/lib.rt

# in place of rt: it keeps others out of the crate and those below it, which have to be built; the crates of RT_MEET wait for one another, and
# that of RT_HANGS_AT goes on until it is stopped
cat >"$folder/bin/rt" <<'RT'
#!/usr/bin/env bash
name=$(basename "$PWD")
for below in $(sed -n "s/^$name\b.*://p" ../../crates.txt | sed 's/#.*//') "$name"; do
    [ -d "../$below/src" ] || continue
    exec {lock}<"../$below" && flock "$lock"
    [ "$below" = "$name" ] || [ -e "../$below/out/built" ] || { echo "$below is not built" && exit 1; }
done
echo "rt says a word$(cat)"
echo "$name: $*" >>"$RT_NOTES/calls"
echo "$name begins" >>"$RT_NOTES/steps"
echo $$ >>"$RT_NOTES/numbers"
for other in $([[ " ${RT_MEET-} " != *" $name "* ]] || echo "$RT_MEET"); do
    timeout 20 bash -c 'until grep -qx "$1 begins" "$RT_NOTES/steps"; do sleep 0.05; done' bash "$other" || exit
done
[[ " ${RT_HANGS_AT-} " != *" $name "* ]] || sleep 60
[ "$name" != "${RT_FAILS_AT-}" ] || exit 1
[ -z "${RT_TOUCHES-}" ] || touch "$RT_TOUCHES"
[ "$1" = lib ] || { mkdir -p out && cp "$RT_PROGRAM" out/crdx_cli; }
mkdir -p out && echo "by $name" >out/built
echo "$name ends" >>"$RT_NOTES/steps"
RT
cat >"$folder/program" <<'PROGRAM'
#!/usr/bin/env bash
printf '<%s>' "$@"
cat
echo 'on standard error' >&2
exit 7
PROGRAM
# in place of awk and nproc: those of a machine with GIGABYTES of free memory and so many PROCESSORS
cat >"$folder/bin/awk" <<'AWK'
#!/usr/bin/env bash
echo "MemAvailable: $((GIGABYTES * 1048576)) kB" >"$RT_NOTES/meminfo"
exec "$REAL_AWK" "${@/#\/proc\/meminfo/$RT_NOTES/meminfo}"
AWK
printf '#!/usr/bin/env bash\necho "$PROCESSORS"\n' >"$folder/bin/nproc"
chmod +x "$folder"/bin/* "$folder/program"
REAL_AWK=$(command -v awk)
unset RT_JOBS CRDX_BUILD
export PATH=$folder/bin:$PATH RT_NOTES=$folder RT_PROGRAM=$folder/program REAL_AWK GIGABYTES=16 PROCESSORS=4

# runs the wrapper from another folder, through a link; the variables status, out and err have how it ended
ln -s "$root/crdx" "$folder/link"
wrapper() {
    for notes in calls steps numbers; do : >"$folder/$notes"; done
    status=0
    (cd / && echo ' and standard input' | "$folder/link" "$@") >"$folder/out" 2>"$folder/err" || status=$?
}

# asks NAME FILE LINE..: whether the file has these lines, and no other
asks() {
    local name=$1 file=$2
    shift 2
    { [ $# -eq 0 ] || printf '%s\n' "$@"; } | diff -u --label wanted - --label written "$folder/$file" >&2 || stop "$name: other lines than wanted"
}

builds() {
    wrapper check --help
    [ -s "$folder/calls" ] || stop "$1: no build"
}

builds_nothing() {
    wrapper check --help
    [ ! -s "$folder/calls" ] || stop "$1: a build"
}

ends_with() {
    [ "$status" -eq "$2" ] || stop "$1: status $status, and not $2"
}

# the first call builds the crates that the program is made of, lowest first and those side by side that can be, says so and how long each
# took, and passes everything through
RT_MEET='left right' wrapper check --help 'two words' ''
ends_with 'the first call' 7
sort -o "$folder/calls" "$folder/calls"
asks 'the calls of rt' calls 'crdx_cli: run --jobs 4 -- --version' 'left: lib --jobs 2' 'low: lib --jobs 4' 'right: lib --jobs 2'
[ "$(head -n 2 "$folder/steps")" = "low begins
low ends" ] || stop 'the first call: another crate begins before the lowest one has ended'
[ "$(tail -n 2 "$folder/steps")" = "crdx_cli begins
crdx_cli ends" ] || stop 'the first call: the program begins before what it depends on has ended'
asks 'standard output' out '<check><--help><two words><> and standard input'
head -n 2 "$folder/err" >"$folder/said"
asks 'the first lines of a build' said \
    "crdx: proving and building the program, which takes 20 to 45 minutes where nothing is kept yet; rt writes to $root/out/build" \
    'crdx: Ctrl-C stops the build, and the next call goes on from there'
grep -q "^    cd $root/crates/crdx_cli && rt try --data .* -- sample crd.json v1 --pools pools.json --limit 5\$" "$folder/err" ||
    stop 'a build: no word on a first look'
grep -E '^crdx: (crate|.* took)' "$folder/err" | sed -E 's/took [0-9]+ s$/took some time/' | sort >"$folder/said"
asks 'standard error of a build' said \
    'crdx: crate 1 of 4: low' 'crdx: crate 2 of 4: left' 'crdx: crate 3 of 4: right' 'crdx: crate 4 of 4: crdx_cli' \
    'crdx: crdx_cli took some time' 'crdx: left took some time' 'crdx: low took some time' 'crdx: right took some time'
[ "$(tail -n 1 "$folder/err")" = 'on standard error' ] || stop 'a build: the standard error of the program is lost'
for name in low left right crdx_cli; do
    asks "the log of $name" "repository/out/build/$name.log" 'rt says a word'
    asks "what is built of $name" "repository/crates/$name/out/built" "by $name"
done
[ "$(cd "$root/out/build" && echo *)" = 'crdx_cli.log left.log low.log right.log' ] || stop 'a build leaves more than logs'

# a later call builds nothing, also where what the program is not made of has changed
builds_nothing 'a second call'
asks 'standard error without a build' err 'on standard error'
for file in docs/page.md tools/tool.sh README.md crates/low/must-fail/wrong.edit crates/crdx_tests/{src,specs,proofs}/lib.rt; do
    echo change >"$root/$file"
    builds_nothing "a change of $file"
done

# what the program is made of starts a build: each part of each crate, a file that is gone, and the list of crates
for file in crates/{low,left,crdx_cli}/{src,specs,proofs}/new.antt crates.txt; do
    touch "$root/$file"
    builds "a change of $file"
    builds_nothing "a call after a change of $file"
done
rm "$root/crates/left/proofs/new.antt"
builds 'a file that is gone'

# an edit during a build is seen by the next call
change() { touch "$root/crates/low/src/lib.rt"; }
change
RT_TOUCHES=$root/crates/low/src/lib.rt builds 'an edit'
builds 'an edit during a build'
builds_nothing 'a call after that'

# one after another where there is one processor, or memory for one check alone, or RT_JOBS says so
one_at_a_time() {
    change
    builds "$1"
    asks "$1: the calls of rt" calls 'low: lib --jobs 1' 'left: lib --jobs 1' 'right: lib --jobs 1' 'crdx_cli: run --jobs 1 -- --version'
    asks "$1: the steps" steps {low,left,right,crdx_cli}' '{begins,ends}
}
PROCESSORS=1 one_at_a_time 'one processor'
GIGABYTES=6 one_at_a_time 'memory for one check'
GIGABYTES=2 one_at_a_time 'memory for less'
RT_JOBS=1 one_at_a_time 'one job'
change
GIGABYTES=11 RT_MEET='left right' builds 'memory for three checks'
[ "$(sort "$folder/calls")" = 'crdx_cli: run --jobs 3 -- --version
left: lib --jobs 1
low: lib --jobs 3
right: lib --jobs 2' ] || stop 'memory for three checks: other shares'
change
PROCESSORS=64 GIGABYTES=512 builds 'many processors'
grep -qx 'low: lib --jobs 4' "$folder/calls" || stop 'many processors: not four jobs'

# whether nothing that was called in place of rt is left
all_stopped() {
    while read -r number; do
        ! kill -0 "$number" 2>/dev/null || stop "$1: $number goes on"
    done <"$folder/numbers"
    ! compgen -G "$root/out/build/*.tree" >/dev/null || stop "$1: a copy is left"
}

# a build that fails ends at once with status 70, what runs beside the crate that fails is stopped, and the program is not run
change
RT_MEET='left right' RT_FAILS_AT=left RT_HANGS_AT=right wrapper check
ends_with 'a build that fails' 70
all_stopped 'a build that fails'
asks 'a build that fails: the steps' steps 'low begins' 'low ends' "$(sed -n 3p "$folder/steps")" "$(sed -n 4p "$folder/steps")"
asks 'standard output of a build that fails' out
tail -n 3 "$folder/err" | sed -E 's/after [0-9]+ s/after some time/' >"$folder/said"
asks 'a build that fails: the last lines' said 'crdx: the last lines of what rt said of left:' 'rt says a word' \
    "crdx: the build of left failed after some time; $root/out/build/left.log has all that rt said"
builds 'a call after a build that fails'
builds_nothing 'a call after that'

# Ctrl-C, which signals the foreground group, stops all of a build, and the next call goes on
change
for notes in steps numbers; do : >"$folder/$notes"; done
set -m
RT_HANGS_AT='left right' "$root/crdx" check >"$folder/out" 2>"$folder/err" &
set +m
timeout 20 bash -c 'until [ "$(grep -c begins "$RT_NOTES/steps")" -eq 3 ]; do sleep 0.05; done' || stop 'Ctrl-C: no build'
kill -INT -- -$!
status=0
wait $! || status=$?
ends_with 'Ctrl-C' 130
all_stopped 'Ctrl-C'
asks 'standard output after Ctrl-C' out
builds 'a call after Ctrl-C'

# where CRDX_BUILD is `no` a call builds nothing, and says what to do; a program that is built is run
CRDX_BUILD=no wrapper check --help
ends_with 'a call that may not build, of a program that is built' 7
for state in 'older than its sources' 'not built'; do
    if [ "$state" = 'not built' ]; then rm -r "$root/crates/crdx_cli/out"; else change; fi
    CRDX_BUILD=no builds_nothing "$state"
    ends_with "$state" 70
    asks "$state" out
    grep -qx "crdx: the program is not built, or older than its sources, and this call builds nothing: run $root/crdx --version .*" "$folder/err" ||
        stop "$state: $(cat "$folder/err")"
done

# a build that cannot begin ends with status 70
mkdir "$folder/tools"
for tool in bash cat readlink dirname find mkdir; do ln -s "$(command -v "$tool")" "$folder/tools"; done
ln -s "$REAL_AWK" "$folder/tools/awk"
PATH=$folder/tools wrapper check
ends_with 'no rt' 70
asks 'no rt' err 'crdx: cannot build: the command rt of the Rattle kit is not on the path'
echo 'test_wrapper.sh: the wrapper builds what it has to, side by side where it can, says how far it is, and passes all else through'
