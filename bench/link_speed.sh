#!/bin/sh
# Prints how long linking takes.
exec "$(dirname "$0")/timed" --verb "${1:-run}" link_speed lar_bytes object_format symbol_link
