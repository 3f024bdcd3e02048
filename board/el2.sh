# Sourced by board/run-el2, board/test-edits and demo, in the repository's top folder: programs for QEMU's virt board.

# A compiler turns the loop of memset into a call of memset, unless it is told not to.
BARE_FLAGS="-std=gnu11 -Wall -Wextra -Werror -O2 -Iinclude -Iboard -ffreestanding -mgeneral-regs-only -mstrict-align
    -mno-outline-atomics -fno-pie -fno-stack-protector -fno-asynchronous-unwind-tables
    -fno-tree-loop-distribute-patterns"

# Links a program whose first byte stands at an address.
link_bare() { # PROGRAM ADDRESS FILES...
    program=$1 address=$2
    shift 2
    # shellcheck disable=SC2086 # a list of words
    aarch64-linux-gnu-gcc $BARE_FLAGS "$@" board/el2/console.c board/el2/memory.c -static -nostdlib -no-pie \
        -Wl,--build-id=none -Wl,--defsym=START="$address" -T board/el2/program.ld -o "$program"
}

# The virtual board prints to a file until a program on it turns it off, or the time is over.
start_board() { # PROCESSOR SECONDS FILE WORDS...
    processor=$1 seconds=$2 file=$3
    shift 3
    timeout "$seconds" qemu-system-aarch64 -M virt,virtualization=on,gic-version=3 -cpu "$processor" -smp 2 -m 1G \
        -nodefaults -display none -serial stdio "$@" </dev/null >"$file" || {
        tail -n 5 "$file"
        echo "QEMU did not end by itself"
        return 1
    }
}

# Runs the guest below the host with an archive, in a folder. The lines stand there in host.stdout, and must be the
# expected ones.
run_guest() { # PROCESSOR SECONDS ARCHIVE FOLDER
    link_bare "$4/guest.elf" 0x40200000 board/el2/guest_start.S board/el2/guest.c &&
        link_bare "$4/host.elf" 0x70000000 board/el2/start.S board/el2/host.c board/el2/stage2_tables.c \
            board/el2/checks.c "$3" &&
        start_board "$1" "$2" "$4/host.stdout" -kernel "$4/host.elf" -device loader,file="$4/guest.elf" &&
        diff board/el2/host.stdout "$4/host.stdout"
}
