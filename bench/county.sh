#!/usr/bin/env bash
# Plans all styles of examples/county.json, or of another definition, with the built program, in a temporary
# folder: at most 60 ballots a style, and a budget of 100,000. It prints what the program says, its status,
# the seconds and the peak memory, and then has sha256sum compare the files with the manifest. It fails
# where one isn't as the manifest says, or there is no manifest. Builds no crate.
definition=$(realpath "${1:-$(dirname "$0")/../examples/county.json}")
cd "$(dirname "$0")" || exit 1
source ./built.sh
program=$(built lat) || exit 1
mkdir "$scratch/county" && cd "$scratch/county" || exit 1

# Runs a command, and then prints its status, the seconds of its clock and processor and its peak memory;
# by Python where there is no `time`.
measure() { # COMMAND..
    local status
    if [ -x /usr/bin/time ]; then
        /usr/bin/time -v -o "$scratch/took" "$@"
        status=$?
        echo "status $status"
        grep -E 'User time|Elapsed|Maximum resident' "$scratch/took"
    else
        python3 - "$@" <<'PYTHON'
import resource, subprocess, sys, time
start = time.monotonic()
status = subprocess.run(sys.argv[1:]).returncode
used = resource.getrusage(resource.RUSAGE_CHILDREN)
print(f"status {status}")
print(f"{time.monotonic() - start:.2f} seconds, {used.ru_utime:.2f} of the processor")
print(f"{used.ru_maxrss} kilobytes at most")
PYTHON
    fi
}

measure "$program" all "$definition" 60 100000
if [ ! -f manifest.txt ]; then
    echo "bench: there is no manifest.txt" >&2
    exit 1
fi
sha256sum -c manifest.txt
