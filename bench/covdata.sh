#!/usr/bin/env bash
# Times reports and merging of a pod with a given number of units: seconds and peak memory.
# usage: covdata.sh PROGRAM [UNITS]
set -eu
program=$(realpath "$1")
units=${2:-1000000}
here=$(cd "$(dirname "$0")" && pwd)
folder=$(mktemp -d)
trap 'rm -rf "$folder"' EXIT
python3 "$here/make_pod.py" "$folder/pod" "$units"
measure() {
    python3 - "$@" <<'PY'
import resource, subprocess, sys, time
start = time.time()
subprocess.run(sys.argv[1:], stdout=subprocess.DEVNULL, check=True)
seconds = time.time() - start
memory = resource.getrusage(resource.RUSAGE_CHILDREN).ru_maxrss // 1024
print("%-10s %6.2f s %6d MB" % (sys.argv[3], seconds, memory))
PY
}
measure "$program" covdata textfmt -i="$folder/pod" -o="$folder/profile"
measure "$program" covdata percent -i="$folder/pod"
measure "$program" covdata func -i="$folder/pod"
measure "$program" covdata merge -i="$folder/pod" -o="$folder/merged"
