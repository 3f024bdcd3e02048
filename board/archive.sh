# Sourced by board/build-archive and board/test-edits, in the repository's top folder: the kit's own clang, how it
# compiles the library's module for 64-bit Arm, and what is checked of the module and of the archives.
KIT=$(dirname "$(rt doc)")
TOOLCHAIN=toolchain
CLANG=$KIT/$TOOLCHAIN/bin/clang
TARGET=aarch64-none-elf
WORK=$PWD/target/board

# The module as it was proved, and as it is compiled for 64-bit Arm: in two parts, the import of a devicetree and all
# other calls.
MODULE=$WORK/x86_64.ll
ARM_MODULE=$WORK/aarch64.ll
IMPORT_MODULE=$WORK/import.ll
CALLS_MODULE=$WORK/calls.ll

# A host at EL2 saves no other registers of its guest.
REGISTERS=-mgeneral-regs-only

# The kit's words for an archive, among them those that keep clang from passes with known faults, and ours: no
# position-independent code, a section a function, and the frames' sizes.
compile() { # MODULE OBJECT [WORDS...]
    module=$1 object=$2
    shift 2
    "$CLANG" --target=$TARGET -march=armv8-a $REGISTERS -fno-pic -ffunction-sections -fdata-sections \
        -fstack-size-section -mllvm -trap-unreachable -mllvm -no-trap-after-noreturn \
        -mllvm -aarch64-load-store-renaming=false -mllvm -disable-machine-licm -mllvm -disable-postra-machine-licm \
        -mllvm -sink-common-insts=false --no-default-config -no-canonical-prefixes -fintegrated-cc1 \
        -fno-crash-diagnostics -Werror -O3 "$@" -c -x ir "$module" -o "$object"
}

# Ends the script, since what was made is not what it should be.
fail() {
    echo "build-archive: $*" >&2
    exit 1
}

# Every word that a module for both targets may have: types of 1 to 64 bits and pointers, whose sizes and alignments
# agree, arithmetic on them, branches, calls, accesses with their alignment, and constant bytes. So there is no floating
# point, vector, i128, assembly, volatile or atomic access, variable, or feature of a processor.
KNOWN_WORDS='
    ptr i64 i32 i16 i8 i1 x void label true false align noundef zeroext nuw nsw inbounds to start
    define declare internal attributes source_filename "rattle"
    constant private unnamed_addr c null zeroinitializer
    alloca load store getelementptr extractvalue call ret br switch unreachable
    add sub mul udiv urem and or xor shl lshr ashr zext sext trunc icmp eq ne ult ule ugt uge slt sle sgt sge
    nounwind alwaysinline nocallback nofree willreturn memory argmem read write readwrite readonly writeonly captures none immarg
    "probe-stack" "inline-asm" "stack-probe-size" "3072"'

# The words of a module: what is no comment, name, label, number, constant byte or note, and no line that names the
# target.
words_of() { # MODULE
    sed -e '/^target /d' -e 's/@"[^"]*"//g' -e 's/ c"[^"]*"/ c/' -e 's/![^, ]*"[^"]*"//g' -e 's/;.*//' \
        -e 's/[%@!#][-A-Za-z0-9._$]*//g' -e 's/^[a-z]*\.*[0-9]*://' "$1" |
        grep -oE '"[^"]*"|[A-Za-z_<][A-Za-z0-9_.]*' | sort -u
}

check_module() { # MODULE
    # shellcheck disable=SC2086 # a word a line
    printf '%s\n' $KNOWN_WORDS | sort >"$WORK/known"
    unknown=$(words_of "$1" | comm -23 - "$WORK/known" | tr '\n' ' ')
    [ -z "$unknown" ] || fail "the module has what may differ between the targets: $unknown"
    others=$(grep '^declare' "$1" | grep -vE '@llvm\.mem(move\.p0\.p0|set\.p0)\.i64\(') &&
        fail "the module calls other code: $others"
    # AAPCS64 leaves the upper half of a 32-bit argument open, and no exported function may take it for extended.
    others=$(grep '^define' "$1" | grep -v '^define internal' |
        grep -vE '^define noundef i64 @ritm_[a-z_]*\(((i32|i64|ptr) noundef %a[0-9](, )?)*\) #0 \{$') &&
        fail "an exported function has arguments that may differ between the targets: $others"
    return 0
}

# The two roundings to a page divide and multiply nowhere, and call nothing that could; no contract says so. (clang
# makes a mask of a division by 4,096, so that the archives would not show it.)
check_roundings() { # MODULE
    for name in align_down_to_page align_up_to_page; do
        sed -n "/^define .*@\"stage2_range::$name\"(/,/^}/p" "$1" >"$WORK/rounding"
        [ -s "$WORK/rounding" ] || fail "the module has no $name"
        if grep -E ' = (mul|udiv|urem) |call .*@"' "$WORK/rounding"; then
            fail "$name divides, multiplies or calls another function"
        fi
    done
}

# The part of the module that is not wanted is made internal, so that clang leaves it out. The import reads bytes and
# copies records that are not made of 64-bit words: so that it needs no alignment, it is a part of its own.
split_module() { # MODULE
    sed '/@ritm_import_memory(/!s/^define noundef i64 @ritm_/define internal noundef i64 @ritm_/' "$1" >"$IMPORT_MODULE"
    sed '/@ritm_import_memory(/s/^define noundef i64 @ritm_/define internal noundef i64 @ritm_/' "$1" >"$CALLS_MODULE"
}

# The functions that the header declares, of a part.
declared() { # import|calls
    sed -n 's/^uint64_t \(ritm_[a-z_]*\)(.*/\1/p' include/ritm.h |
        if [ "$1" = import ]; then grep -x ritm_import_memory; else grep -vx ritm_import_memory; fi | sort
}

# The stack that a call takes at most: the largest frame of an exported function and those of all others.
stack_of() { # ARCHIVE
    "$WORK/kit/llvm-readelf" --stack-sizes "$1" | awk '
        $1 ~ /^[0-9]+$/ && $2 ~ /^ritm_/ { if ($1 > most) most = $1; next }
        $1 ~ /^[0-9]+$/ { others += $1 }
        END { print most + others }'
}

# Writes the archive's instructions, one to a line, without addresses and names.
disassemble() { # ARCHIVE FILE
    "$WORK/kit/llvm-objdump" -d --no-show-raw-insn "$1" |
        sed -n 's/^ *[0-9a-f]*:[[:space:]]*//p' | sed -e 's/<.*>//' -e 's,//.*,,' >"$2"
    [ -s "$2" ] || fail "$1 has no instructions"
}

check_object() { # OBJECT import|calls NEEDED MOST_STACK
    "$WORK/kit/llvm-nm" --extern-only --defined-only "$1" | awk 'NF == 3 { print $3 }' | sort >"$WORK/defined"
    declared "$2" | diff - "$WORK/defined" || fail "$1 does not define what include/ritm.h declares"
    needed=$("$WORK/kit/llvm-nm" -u "$1" | awk '$1 == "U" { print $2 }' | sort | tr '\n' ' ')
    [ "$needed" = "$3 " ] || fail "$1 needs $needed and not $3"
    disassemble "$1" "$WORK/instructions"
    if grep -E '[[:space:],{[][bhsdqvz][0-9]+([^0-9]|$)' "$WORK/instructions"; then
        fail "$1 uses floating-point or vector registers"
    fi
    if grep -E '^(brk|udf|hlt)' "$WORK/instructions"; then
        fail "$1 has an instruction that traps"
    fi
    stack=$(stack_of "$1")
    [ "$stack" -gt 0 ] || fail "$1 does not say what stack it takes"
    [ "$stack" -le "$4" ] || fail "a call of $1 takes $stack bytes of stack, more than $4"
    size=$("$WORK/kit/llvm-size" "$1" | awk 'NR == 2 && $2 + $3 == 0 { print $1 }')
    [ -n "$size" ] || fail "$1 has data of its own"
    count=$(grep -c . "$WORK/instructions")
    echo "archive: ${1#"$WORK/"}: $size bytes in $count instructions, at most $stack bytes of stack, needs $3"
}

# Every access of the object, to the stack as to buffers, is of 64 bits, and where the offset is a number it is a
# multiple of 8. An offset in a register is seen at EL2 alone (board/run-el2).
check_words_alone() { # OBJECT
    disassemble "$1" "$WORK/instructions"
    narrow='^(ld|st)[a-z]*(b|h|sw)[[:space:]]|^(ld|st)[a-z0-9]*[[:space:]]w'
    between='^(ld|st).*#-?0x[0-9a-f]*[1-79a-f](\]|$)'
    if grep -E "$narrow|$between" "$WORK/instructions"; then
        fail "$1 makes an access other than of a 64-bit word"
    fi
}
