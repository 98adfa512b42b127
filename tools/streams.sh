#!/usr/bin/env bash
# Runs the program on real streams and files that break: a full device, a reader that goes away, standard input that cannot be read,
# a file without end, and one that may not be read. Each run has to say so in its line on standard error and by its status.
# Usage: tools/streams.sh [PROGRAM], by default the program that `rt ci` leaves.
set -euo pipefail
program=${1:+$(realpath -- "$1")}
cd "$(dirname "$0")/.."
program=${program:-$PWD/crates/crdx_cli/out/crdx_cli}
widget=$PWD/examples/widget issuer=$PWD/examples/issuer

stop() {
    echo "streams.sh: $1" >&2
    exit 1
}

[ -x "$program" ] || stop "there is no program $program: ./crdx --help builds it"
folder=$(mktemp -d)
trap 'rm -rf "$folder"' EXIT

# says NAME STATUS LINE: whether the run whose status is in the variable `ended` ended so, with this line alone on standard error
says() {
    [ "$ended" -eq "$2" ] || stop "$1: status $ended, and not $2"
    [ "$(cat "$folder/err")" = "$3" ] || stop "$1: '$(head -n 1 "$folder/err")' on standard error, and not '$3'"
}

# the line of a write that failed says how many whole lines were taken
ended=0
"$program" check "$widget/crd.json" v1 >/dev/full 2>"$folder/err" || ended=$?
says 'check on a full device' 4 'crdx: write failed after 0 lines'
ended=0
"$program" sample "$widget/crd.json" v1 --pools "$widget/pools.json" --limit 4 >/dev/full 2>"$folder/err" || ended=$?
says 'sample on a full device' 4 'crdx: write failed after 0 lines'
ended=0
"$program" sample "$widget/crd.json" v1 --pools "$widget/pools.json" --limit 4 --all >/dev/full 2>"$folder/err" || ended=$?
says 'sample --all on a full device' 4 'crdx: write failed after 0 lines'
ended=0
"$program" cover "$widget/crd.json" v1 --pools "$widget/pools.json" >/dev/full 2>"$folder/err" || ended=$?
says 'cover on a full device' 4 'crdx: write failed after 0 lines'
ended=0
"$program" default "$widget/crd.json" v1 --lines <"$widget/samples-of-4-nodes.txt" >/dev/full 2>"$folder/err" || ended=$?
says 'default --lines on a full device' 4 'crdx: write failed after 0 lines'

# a reader that goes away after the first line: 10,000 lines are more than a pipe holds
cat >"$folder/optional.json" <<'CRD'
{"apiVersion":"apiextensions.k8s.io/v1","kind":"CustomResourceDefinition","spec":{"group":"example.org","names":{"kind":"Widget"},"versions":[{"name":"v1","schema":{"openAPIV3Schema":{"type":"object","properties":{"a":{"type":"integer"},"b":{"type":"integer"},"c":{"type":"integer"},"d":{"type":"integer"},"e":{"type":"integer"},"f":{"type":"integer"},"g":{"type":"integer"},"h":{"type":"integer"},"i":{"type":"integer"}}}}}]}}
CRD
echo '{"integers":[0,1]}' >"$folder/two.json"
many=("$program" sample "$folder/optional.json" v1 --pools "$folder/two.json" --limit 63 --count 10000)
"${many[@]}" >"$folder/whole" 2>"$folder/err"
[ "$(wc -l <"$folder/whole")" -eq 10000 ] || stop 'not 10,000 lines'
{
    ended=0
    "${many[@]}" 2>"$folder/err" || ended=$?
    echo "$ended" >"$folder/status"
} | head -n 1 >"$folder/first"
ended=$(cat "$folder/status")
[ "$(cat "$folder/first")" = '{}' ] || stop 'the first line is not {}'
lines=$(sed -n 's/^crdx: write failed after \([0-9]*\) lines$/\1/p' "$folder/err")
says '10,000 lines into head' 4 "crdx: write failed after ${lines:-N} lines"
[ "$lines" -ge 1 ] && [ "$lines" -lt 10000 ] || stop "10,000 lines into head: $lines whole lines were taken"

# the walk that goes on past the last whole line writes exactly what is missing
head -n "$lines" "$folder/whole" >"$folder/joined"
"$program" sample "$folder/optional.json" v1 --pools "$folder/two.json" --limit 63 --count $((10000 - lines)) \
    --after "$(tail -n 1 "$folder/joined")" >>"$folder/joined" 2>"$folder/err"
cmp -s "$folder/joined" "$folder/whole" || stop 'the walk that goes on does not write what is missing'

# the same of a listing that has no end in a lifetime, 65^9 lines, and of 10,000 answers: the run ends by itself; and of a large cover,
# which takes longer than its seconds: a line is there before the next path is looked at
into_head() {
    local name=$1 seconds=$2 first=$3 ended=0 lines
    shift 3
    {
        (
            ulimit -t "$seconds"
            exec "$program" "$@"
        ) 2>"$folder/err" || ended=$?
        echo "$ended" >"$folder/status"
    } | head -n 3 >"$folder/first"
    ended=$(cat "$folder/status")
    [ "$(sed -n '1p;$=' "$folder/first")" = "$first"$'\n3' ] || stop "$name into head: not three lines from $first on"
    lines=$(sed -n 's/^crdx: write failed after \([0-9]*\) lines$/\1/p' "$folder/err")
    says "$name into head" 4 "crdx: write failed after ${lines:-N} lines"
    [ "$lines" -ge 3 ] || stop "$name into head: $lines whole lines were taken"
}
echo "{\"integers\":[$(seq -s , 64)]}" >"$folder/many.json"
into_head 'all samples' 10 '{}' sample "$folder/optional.json" v1 --pools "$folder/many.json" --limit 63 --all
into_head 'answers to lines' 10 '{}' default "$folder/optional.json" v1 --lines "$folder/whole"
tools/large_schema.py 16000 117 >"$folder/large.json"
into_head 'a large cover' 1 '{"spec":{}}' cover "$folder/large.json" v1 --large

# a pipe that nobody reads
exec 3> >(:)
wait $!
ended=0
"$program" cover "$widget/crd.json" v1 --pools "$widget/pools.json" >&3 2>"$folder/err" || ended=$?
exec 3>&-
says 'cover into a pipe that nobody reads' 4 'crdx: write failed after 0 lines'

# the answer to a line is there before the next line is
mkfifo "$folder/lines" "$folder/answers"
"$program" default "$issuer/crd.json" v1 --lines <"$folder/lines" >"$folder/answers" 2>"$folder/err" &
exec 3>"$folder/lines" 4<"$folder/answers"
for number in 1 2 3; do
    cat "$issuer/object.prune.json" >&3
    read -r -t 10 answer <&4 || stop "default --lines: no answer to line $number while its input is open"
    [ "$answer" = "$(cat "$issuer/object.default.json")" ] || stop "default --lines: another answer to line $number than to the object alone"
done
exec 3>&- 4<&-
ended=0
wait $! || ended=$?
says 'default --lines of a pipe' 0 ''

# standard input that is a folder, or closed
ended=0
"$program" prune "$widget/crd.json" v1 <"$folder" >"$folder/out" 2>"$folder/err" || ended=$?
says 'a folder as standard input' 4 'crdx: object: read failed'
ended=0
"$program" prune "$widget/crd.json" v1 <&- >"$folder/out" 2>"$folder/err" || ended=$?
says 'closed standard input' 4 'crdx: object: read failed'
ended=0
"$program" default "$widget/crd.json" v1 --lines <"$folder" >"$folder/out" 2>"$folder/err" || ended=$?
says 'a folder as lines' 4 'crdx: object: read failed'

# an object that comes byte by byte is the one that comes at once
ended=0
dd bs=1 status=none <"$issuer/object.json" | "$program" prune "$issuer/crd.json" v1 >"$folder/out" 2>"$folder/err" || ended=$?
says 'an object byte by byte' 0 ''
cmp -s "$folder/out" "$issuer/object.prune.json" || stop 'an object byte by byte is another than at once'

# a file without end is refused once more than the limit is read
ended=0
(
    ulimit -t 5
    exec "$program" check /dev/zero v1 >"$folder/out" 2>"$folder/err"
) || ended=$?
says 'a file without end' 3 'crdx: crd: J4'
# a long line is passed over, and no more than a document of it is held
ended=0
{ head -c 100000000 /dev/zero && echo && cat "$issuer/object.default.json"; } | (
    ulimit -t 5 -v 65536
    exec "$program" default "$issuer/crd.json" v1 --lines >"$folder/out" 2>"$folder/err"
) || ended=$?
says 'a long line' 3 'crdx: object: 1: J4'
cmp -s "$folder/out" "$issuer/object.default.json" || stop 'the line after a long line has another answer than alone'

# a folder as a definition, and a file that may not be read, by another user, since root may read all
ended=0
"$program" check "$folder" v1 >"$folder/out" 2>"$folder/err" || ended=$?
says 'a folder as a definition' 4 'crdx: crd: read failed'
for command in 'sample --all' cover; do
    ended=0
    read -ra words <<<"$command"
    "$program" "${words[@]}" "$widget/crd.json" v1 --pools "$folder" >"$folder/out" 2>"$folder/err" || ended=$?
    says "a folder as pools of $command" 4 'crdx: pools: read failed'
done
if [ "$(id -u)" -eq 0 ]; then
    cp "$program" "$folder/program"
    cp "$widget/crd.json" "$folder/secret.json"
    cp "$widget/crd.json" "$folder/open.json"
    chmod 755 "$folder" "$folder/program" "$folder/open.json"
    chmod 600 "$folder/secret.json"
    another=(setpriv --reuid 65534 --regid 65534 --clear-groups "$folder/program")
    if "${another[@]}" --version >"$folder/out" 2>"$folder/err"; then
        ended=0
        "${another[@]}" check "$folder/secret.json" v1 >"$folder/out" 2>"$folder/err" || ended=$?
        says 'a file that may not be read' 4 'crdx: crd: read failed'
        ended=0
        "${another[@]}" default "$folder/open.json" v1 --lines "$folder/secret.json" >"$folder/out" 2>"$folder/err" || ended=$?
        says 'lines that may not be read' 4 'crdx: object: read failed'
    else
        echo 'streams.sh: no other user can run the program here, so a file that may not be read is left out'
    fi
fi
echo 'streams.sh: all runs on broken streams and files said so'
