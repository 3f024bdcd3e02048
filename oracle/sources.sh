# Sourced by the scripts of this folder, most of them by prepare.sh: finds cargo and RITM's sources, or says in one line
# what is missing and exits.
#   3 no cargo, or one too old   4 no sources of RITM   6 the sources are not those recorded
# RITM_SRC names another folder of sources, which may be relative. RITM_EDITED=1 says that the sources are edited: they
# are then not compared with the recorded ones.

oracle=$(cd "$(dirname "$0")" && pwd)
. "$oracle/../tests/needs.sh"

default_sources() {
    echo "$oracle/$(sed -n 's/^RITM_SRC = { value = "\(.*\)", relative = true }$/\1/p' "$oracle/.cargo/config.toml")"
}

lacking=$(lacks_cargo "$oracle")
[ -z "$lacking" ] || missing 3 "$lacking"

sources=${RITM_SRC:-$(default_sources)}
[ -f "$sources/src/hypervisor.rs" ] ||
    missing 4 "RITM's sources are missing: no $sources/src/hypervisor.rs; RITM_SRC names another folder"
RITM_SRC=$(cd "$sources" && pwd)

if [ "${RITM_EDITED:-0}" != 1 ]; then
    (cd "$RITM_SRC" && sha256sum --check --quiet "$oracle/sources.sha256") >&2 ||
        missing 6 "the sources in $RITM_SRC are not those recorded; RITM_EDITED=1 takes them as they are"
fi
export RITM_SRC
