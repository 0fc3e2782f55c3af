#!/bin/sh
# jobs.sh: how many checks run side by side: one a processor, but no more than free memory holds at 5 GB each, and at least one.
# RT_JOBS, where it is set, says it instead.
if [ -n "${RT_JOBS:-}" ]; then
    echo "$RT_JOBS"
    exit
fi
processors=$(nproc)
fit=$(awk '/^MemAvailable:/ { print int($2 / 5000000) }' /proc/meminfo)
jobs=$((fit < processors ? fit : processors))
echo $((jobs < 1 ? 1 : jobs))
