#!/bin/sh
# Prints how long sources of 16 MiB take to be cut into tokens.
exec "$(dirname "$0")/timed" --verb "${1:-run}" token_speed lar_bytes lar_tree lar_lexer
