#!/usr/bin/env bash
# What the gate takes, crate by crate: runs `rt ci`, or the command that is given, looks each second at the checks that run for it, and
# prints a table of minutes after its output. The output of `rt ci` has no times, and does not say when the wrong bodies of a crate are done.
# Wall minutes of a crate are those in which a check of it ran, processor minutes what each of its checks had taken when it was last seen.
# The last line is the whole, with what is linked and the programs and tests that are run.
set -euo pipefail
cd "$(dirname "$0")/.."
[ $# -gt 0 ] || set -- rt ci
declare -A wall processor step_of ticks_of
before=0

# Takes note of the checks that run: processes `rattle WORD --crate-name CRATE ..` of the command's session. A wrong body is checked in a folder rt-edit-*.
look() {
    local file pid words stat step check now=$SECONDS
    local -A seen=()
    for file in /proc/[0-9]*/cmdline; do
        pid=${file//[!0-9]/}
        { mapfile -d '' -t words <"$file" && read -r stat <"/proc/$pid/stat"; } 2>/dev/null || continue
        read -ra stat <<<"${stat##*) }"
        [[ ${words[0]-} == */rattle && ${words[2]-} == --crate-name && ${stat[3]} == "$run" ]] || continue
        step="${words[3]} proof"
        [[ $(readlink "/proc/$pid/cwd") != */rt-edit-* ]] || step="${words[3]} edits"
        # the number of a process that has ended may be given again, so its start is part of the name
        check=$pid-${stat[19]}
        step_of[$check]=${step_of[$check]-$step}
        ticks_of[$check]=$((stat[11] + stat[12]))
        seen[$step]=1
    done
    for step in "${!seen[@]}"; do wall[$step]=$((${wall[$step]-0} + now - before)); done
    before=$now
}

# seconds as minutes, and ticks of the processor's clock as minutes
minutes() { printf '%d.%d' $((($1 + 3) / 60)) $((($1 + 3) / 6 % 10)); }
ticks() { minutes $(($1 / $(getconf CLK_TCK))); }

SECONDS=0
setsid "$@" &
run=$!
trap 'kill "$run" 2>/dev/null || true' EXIT
while kill -0 "$run" 2>/dev/null; do
    look
    sleep 1
done
status=0
wait "$run" || status=$?

for check in "${!step_of[@]}"; do processor[${step_of[$check]}]=$((${processor[${step_of[$check]}]-0} + ticks_of[$check])); done
echo '| Crate | Proved with its tests (wall) | (processor) | Wrong bodies | tried in (wall) | (processor) |'
echo '|---|---|---|---|---|---|'
for crate in $(sed -n 's/^\([a-z0-9_]\+\).*/\1/p' crates.txt); do
    bodies=$(find "crates/$crate" -path '*/must-fail/*.edit' | wc -l)
    proof="$(minutes "${wall[$crate proof]-0}") | $(ticks "${processor[$crate proof]-0}")"
    echo "| \`$crate\` | $proof | $bodies | $(minutes "${wall[$crate edits]-0}") | $(ticks "${processor[$crate edits]-0}") |"
done
read -r stat </proc/$$/stat
read -ra stat <<<"${stat##*) }"
echo "In all $(minutes "$SECONDS") minutes, and $(ticks $((stat[13] + stat[14]))) of processor time."
exit "$status"
