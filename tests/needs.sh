# Sourced by demo and by the scripts of tests/, board/ and oracle/: finds what a script needs before anything is proved
# or built. What is missing is told in one line. The functions from find_kit on work in the repository's top folder.

# Says in one line what is missing, and ends the script: STATUS TEXT.
missing() {
    echo "$0: $2" >&2
    exit "$1"
}

# Says which package of Debian's brings a command, if this file knows.
brought_by() {
    case $1 in
    aarch64-linux-gnu-gcc) echo " (Debian: gcc-aarch64-linux-gnu)" ;;
    dtc) echo " (Debian: device-tree-compiler)" ;;
    qemu-aarch64 | qemu-x86_64) echo " (Debian: qemu-user)" ;;
    qemu-system-aarch64) echo " (Debian: qemu-system-arm)" ;;
    esac
}

# Says which of these commands are not on the path, if some are not.
lacks() {
    absent=
    for command; do
        command -v "$command" >/dev/null || absent="$absent${absent:+ and }no $command$(brought_by "$command")"
    done
    [ -z "$absent" ] || echo "there is $absent on the path"
}

# Says what is missing to run the archives for 64-bit Arm in user programs, if something is.
lacks_arm_user() {
    lacking=$(lacks cc aarch64-linux-gnu-gcc qemu-aarch64)
    library=$(aarch64-linux-gnu-gcc -print-file-name=libc.a 2>/dev/null || :)
    [ -f "$library" ] ||
        lacking="${lacking:-there is}${lacking:+ and} no C library for 64-bit Arm (Debian: libc6-dev-arm64-cross)"
    [ -z "$lacking" ] || echo "$lacking"
}

# The same of the archive at EL2.
lacks_arm_board() {
    lacks cc aarch64-linux-gnu-gcc qemu-system-aarch64
}

# Says what is missing to make the blobs of tests/devicetree again, if something is. Another version of dtc may write
# other bytes, as good as these.
lacks_devicetree_tools() {
    lacking=$(lacks cc dtc)
    version=$(dtc --version 2>/dev/null) || version=none
    if [ -n "$lacking" ]; then
        echo "$lacking"
    elif [ "$version" != "Version: DTC 1.6.1" ]; then
        echo "dtc 1.6.1 is needed, and there is ${version#Version: }"
    else
        lacks_libfdt
    fi
}

# Says what is missing to compile with libfdt, if something is.
lacks_libfdt() {
    lacking=$(lacks cc)
    if [ -n "$lacking" ]; then
        echo "$lacking"
    elif ! echo 'int main(void) { return fdt_check_full(0, 0) == 0; }' |
        cc -include libfdt.h -x c - -lfdt -o /dev/null 2>/dev/null; then
        echo "there is no libfdt with fdt_check_full (Debian: libfdt-dev)"
    fi
}

# Says what is missing for the cargo package in a folder, if something is: cargo, as new as the package asks for, or cc,
# by which cargo links.
lacks_cargo() {
    lacking=$(lacks cargo cc)
    wanted=$(sed -n 's/^rust-version = "1\.\([0-9]*\)"$/\1/p' "$1/Cargo.toml")
    version=$(cargo --version 2>/dev/null) || version="a cargo that does not run"
    minor=$(echo "$version" | sed -n 's/^cargo 1\.\([0-9]*\)\..*/\1/p')
    if [ -n "$lacking" ]; then
        echo "$lacking"
    elif [ "${minor:-0}" -lt "$wanted" ]; then
        echo "cargo 1.$wanted or later is needed, and there is $version"
    fi
}

# Asks for commands on the path.
need() {
    lacking=$(lacks "$@")
    [ -z "$lacking" ] || missing 2 "$lacking"
}

# Asks for the kit, and says so where it is another than the one that the file KIT names, which proves this tree.
find_kit() {
    need rt
    installed=$(rt version)
    recorded=$(cat KIT)
    [ "$installed" = "$recorded" ] || echo "$0: the kit is $installed; this tree was proved with $recorded"
}

# Asks for a folder target/ that can be written.
find_target() {
    probe=$(mkdir -p target 2>/dev/null && mktemp target/probe.XXXXXX 2>/dev/null) ||
        missing 2 "the folder $PWD/target cannot be written"
    rm "$probe"
}
