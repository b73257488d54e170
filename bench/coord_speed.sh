#!/bin/sh
# Prints how long whole runs of the coordinator take.
exec "$(dirname "$0")/timed" --verb "${1:-run}" coord_speed coord_core
