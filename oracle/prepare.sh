# Sourced by the scripts of this folder: finds what they need, or says in one line what is missing and exits.
#   3, 4, 6 cargo or RITM's sources (sources.sh)   5 no archive
# RITM_LIB_DIR names another folder of the archive, which may be relative.

. "$(dirname "$0")/sources.sh"

archive=${RITM_LIB_DIR:-$oracle/../target/staticlib}
[ -f "$archive/libritm.a" ] ||
    missing 5 "the archive is missing: no $archive/libritm.a; build it with board/build-archive"
RITM_LIB_DIR=$(cd "$archive" && pwd)

CARGO_TARGET_DIR=${CARGO_TARGET_DIR:-$oracle/../target/oracle}
export RITM_LIB_DIR CARGO_TARGET_DIR
cd "$oracle"
