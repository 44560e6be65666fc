# shellcheck shell=bash
# Commands that stand in for others, so that a test can say what they do.

# stand_in FILE: a command of bash, its lines from standard input
stand_in() {
    mkdir -p "$(dirname "$1")"
    { echo '#!/usr/bin/env bash' && cat; } >"$1"
    chmod +x "$1"
}
