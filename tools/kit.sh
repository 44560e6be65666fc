# shellcheck shell=bash
# The Rattle kit: where it is, and which one. It is pinned by its identity, in tools/KIT-ID. Another may prove less or speak
# otherwise, so it is told of; whether all is proved stays for rt to say.

kit() {
    dirname "$(rt doc)"
}

kit_toolchain() {
    echo "$(kit)/toolchain"
}

# warn_of_another_kit WHO: one line, where rt is not of the kit that is pinned
warn_of_another_kit() {
    local pinned found
    pinned=$(cat "$(dirname "${BASH_SOURCE[0]}")/KIT-ID")
    found=$(rt version 2>&1) || found='one without a version'
    [ "$found" = "$pinned" ] || echo "$1: the kit here is $found; all was last proved with $pinned (tools/KIT-ID)" >&2
}
