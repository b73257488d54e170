#!/bin/sh
# Prints how long finding 10,000 records of 10,000 bytes takes, finding four of 16 MiB, and pruning names, with the peak of memory; and how long
# `cat` and `sha256sum` take over as many bytes in as many files, by the time of the processor.
set -e
here=$(dirname "$0")
"$here/timed" --peak --verb "${1:-run}" store_speed lar_bytes keepers work_products
[ "${1:-run}" = run ] || exit 0
python3 - <<'P'
import os, resource, subprocess, tempfile


def processor_time():
    usage = resource.getrusage(resource.RUSAGE_CHILDREN)
    return usage.ru_utime + usage.ru_stime


with tempfile.TemporaryDirectory() as folder:
    for number in range(10000):
        with open(os.path.join(folder, str(number)), "wb") as file:
            file.write(os.urandom(10000))
    for command in ("cat", "sha256sum"):
        start = processor_time()
        subprocess.run(f"find {folder} -type f -print0 | xargs -0 {command} >/dev/null", shell=True, check=True)
        print(command, "of 10,000 files of 10,000 bytes:", round((processor_time() - start) * 1000000), "microseconds")
P
