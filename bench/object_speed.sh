#!/bin/sh
# Prints how long reading and writing of large objects take, and the peak of memory over all.
exec "$(dirname "$0")/timed" --peak --verb "${1:-run}" object_speed lar_bytes object_format
