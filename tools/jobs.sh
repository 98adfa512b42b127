#!/usr/bin/env bash
# Prints how many checks run at once: what RT_JOBS says, or else one for each processor, four at most, and no more than there is memory for, at
# 3.5 GB a check.
set -euo pipefail
jobs=$(awk '/^MemAvailable/ { print int($2 / 3670016) }' /proc/meminfo)
for most in "$(nproc)" 4; do
    [ "$jobs" -le "$most" ] || jobs=$most
done
[ "$jobs" -ge 1 ] || jobs=1
echo "${RT_JOBS:-$jobs}"
