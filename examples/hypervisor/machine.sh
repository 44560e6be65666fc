# shellcheck shell=bash
# The hypervisor, built with the kit's compiler and linker alone and started under QEMU. Uses tools/kit.sh, from the root of the
# repository.

archive=target/lib/aarch64/libelsterkabel.a

# make_library: the archive, unless none of its sources is newer; what rt leaves in a crate's out/ is none
make_library() {
    local sources=(crates crates.txt tools/library)
    if [ ! -e "$archive" ] || [ -n "$(find "${sources[@]}" -name out -prune -o -newer "$archive" -print -quit)" ]; then
        tools/library aarch64
    fi
}

# build_hypervisor SOURCES OUT: leaves OUT/hypervisor.elf
build_hypervisor() {
    local sources=$1 out=$2 tools
    tools=$(kit_toolchain)/bin
    rm -rf "$out"
    mkdir -p "$out/guest"
    compile_folder "$sources/guest" "$out/guest" &&
        "$tools/ld.lld" --oformat binary -T "$sources/guest/link.ld" "$out"/guest/*.o -o "$out/guest.bin" &&
        compile_folder "$sources" "$out" &&
        "$tools/ld.lld" -T "$sources/link.ld" "$out"/*.o "$archive" -o "$out/hypervisor.elf"
}

# compile_folder FROM TO: for build_hypervisor, by its names. The kit's compiler has no headers, and the registers for floating
# point and vectors are the guest's.
compile_folder() {
    local source
    for source in "$1"/*.[cS]; do
        "$tools/clang" --target=aarch64-unknown-none-elf -ffreestanding -mgeneral-regs-only -std=c11 -O2 \
            -Wall -Wextra -Wconversion -Werror -nostdinc -isystem "$sources/include" -Ibinding/c "-I$out" \
            -c "$source" -o "$2/$(basename "$source").o" || return
    done
}

# can_start: whether there is a QEMU
can_start() {
    command -v qemu-system-aarch64 >/dev/null
}

# seconds_for TICKS: several times what was seen to be needed
seconds_for() {
    echo $((60 + ($1 > 0 ? $1 / 4000000 : 0)))
}

# What the machine is, unless asked otherwise. An instruction takes a nanosecond, so that each run is the same whatever else this
# computer does; without that option time goes by its clock.
core=(-cpu cortex-a72)
clock=(-icount 'shift=0,sleep=off')

# start_machine IMAGE TICKS: ends with the machine's status, with 1 for an error of QEMU's own, or with 7 if time is up. The ticks
# go where link.ld has `lease`.
start_machine() {
    local status=0
    timeout --kill-after=5 "$(seconds_for "$2")" qemu-system-aarch64 -machine virt,virtualization=on,gic-version=2 -accel tcg \
        "${core[@]}" "${clock[@]}" -nographic -semihosting-config enable=on,target=native -kernel "$1" \
        -device "loader,addr=0x40200000,data=$(printf '0x%x' "$2"),data-len=8" </dev/null || status=$?
    case $status in
    124 | 137) return 7 ;;
    *) return "$status" ;;
    esac
}
