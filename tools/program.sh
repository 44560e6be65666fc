# shellcheck shell=bash
# The proved programs, and C programs with the library, for x86-64 and for Arm: how they are built and run. The kit runs on
# x86-64, and so does all of this. An Arm program needs a compiler and an emulator that the machine may have.

# program NAME: the program that a crate of the repository is, as rt leaves it
program() {
    echo "crates/$1/out/$1"
}

# build_program NAME: proves it and leaves it there, from the root of the repository. rt also runs what it built, here without
# input, to which neither program writes anything. What rt says comes on standard error.
build_program() {
    (cd "crates/$1" && rt run </dev/null)
}

no_way() {
    echo "no way to $1: there is one for x86_64 and one for aarch64" >&2
    return 1
}

is_there() {
    command -v "$1" >/dev/null
}

# can_run ARCH: whether a C program for it can be linked and run here
can_run() {
    case $1 in
    x86_64) true ;;
    aarch64) is_there aarch64-linux-gnu-gcc && is_there qemu-aarch64 ;;
    *) false ;;
    esac
}

# run_for ARCH FILE [ARGUMENT..]
run_for() {
    case $1 in
    x86_64) "${@:2}" ;;
    aarch64) qemu-aarch64 "${@:2}" ;;
    *) no_way "run a program for $1" ;;
    esac
}

# link_for ARCH FILE.c OUT: a C program with the archive that tools/library leaves
link_for() {
    local options=(-std=c11 -O2 -Wall -Wextra -Wconversion -Werror -Ibinding/c) archive=target/lib/$1/libelsterkabel.a
    case $1 in
    x86_64) cc "${options[@]}" "$2" "$archive" -o "$3" ;;
    aarch64) aarch64-linux-gnu-gcc -static "${options[@]}" "$2" "$archive" -o "$3" ;;
    *) no_way "link $2 for $1" ;;
    esac
}
