#!/usr/bin/env bash
# Proves the library and builds it as host/lib/libdomain_store.a, unless that stands there already for the sources as they are. The copy is kept
# outside crates/, whose out/ folders may go at any time.
set -euo pipefail
cd "$(dirname "$0")/.."

fail() { echo "library: $*" >&2; exit 1; }
minutes() { echo "$(($1 / 60)) min $(($1 % 60)) s"; }

# Someone who has an archive already can have it used as it is.
if [ -n "${DOMAIN_STORE_LIB:-}" ]; then
    case "$DOMAIN_STORE_LIB" in /*) ;; *) fail "DOMAIN_STORE_LIB must be an absolute path, and is $DOMAIN_STORE_LIB" ;; esac
    [ -f "$DOMAIN_STORE_LIB/libdomain_store.a" ] || fail "DOMAIN_STORE_LIB is $DOMAIN_STORE_LIB, and there is no libdomain_store.a in it"
    echo "library: DOMAIN_STORE_LIB is set, so $DOMAIN_STORE_LIB/libdomain_store.a is taken as it is; nothing is proved"
    exit 0
fi

command -v rt >/dev/null || fail "the Rattle kit is not on the path: its command 'rt' proves and builds the library"

# The crates that the library is made of: domain_store_c, which exports the functions of C, and all that it rests on in this repository.
[ -d crates/domain_store_c ] || fail "there is no crate domain_store_c in crates/"
crates=(domain_store_c)
for ((i = 0; i < ${#crates[@]}; i++)); do
    read -ra below < <(sed -n "s/^${crates[i]}\( staticlib\)\{0,1\}:\([^#]*\).*/\2/p" crates.txt; echo)
    for crate in "${below[@]}"; do
        case " ${crates[*]} " in *" $crate "*) continue ;; esac
        # A library of the kit has no folder here.
        [ ! -d "crates/$crate" ] || crates+=("$crate")
    done
done

# A sum over the kit and over code, definitions and proofs of these crates. Times of files say nothing: a checkout changes them.
folders=()
for crate in "${crates[@]}"; do
    for part in src specs proofs; do
        [ ! -d "crates/$crate/$part" ] || folders+=("crates/$crate/$part")
    done
done
sources=$({
    rt version
    find "${folders[@]}" -type f -print0 | LC_ALL=C sort -z | xargs -0 sha256sum
} | sha256sum | cut -d' ' -f1)

archive=host/lib/libdomain_store.a
if [ -f "$archive" ] && [ "$(cat host/lib/sources 2>/dev/null)" = "$sources" ]; then
    echo "library: $archive is proved and built from the sources as they are"
    exit 0
fi

mkdir -p host/lib
# Until the new archive stands, no sum does: an interrupted run is made again.
rm -f host/lib/sources
echo "library: the library is proved before it is built, with all that it rests on: ${crates[*]}"
if [ -f host/lib/seconds ]; then
    echo "library: that took up to $(minutes "$(cat host/lib/seconds)") here; what has not changed since is not proved again"
else
    echo "library: from nothing that takes some 13 minutes; a line appears for each crate when it is proved"
fi
begin=$SECONDS
# A line for each crate is enough to follow; the log has a line for each function.
(cd crates/domain_store_c && rt lib) 2>&1 | tee host/lib/log | awk '/^crate / { sub(":", "", $2); crate = $2 } /^logic=proved/ { print "library:   " crate " is proved"; fflush() }' ||
    fail "the library is not proved, so it is not built; host/lib/log has all that was said, and ends with:
$(tail -15 host/lib/log)"
took=$((SECONDS - begin))
cp crates/domain_store_c/out/libdomain_store_c.a "$archive.new"
# An equal archive keeps its time, so that nothing is linked again.
if cmp -s "$archive.new" "$archive"; then rm "$archive.new"; else mv "$archive.new" "$archive"; fi
echo "$sources" >host/lib/sources
# The longest run is the one from nothing.
[ -f host/lib/seconds ] && [ "$(cat host/lib/seconds)" -ge "$took" ] || echo "$took" >host/lib/seconds
echo "library: proved and built in $(minutes "$took"); kept as $archive"
