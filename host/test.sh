#!/usr/bin/env bash
# All tests of the compiled library. First those with fixed seeds, which come out the same on every machine: the C and the Rust side, the model, the
# random sessions. Then those that step or kill child processes, which say so where the machine does not allow that.
set -uo pipefail
cd "$(dirname "$0")" || exit 1

lib=${DOMAIN_STORE_LIB:-lib}
log=$(mktemp -d)
trap 'rm -rf "$log"' EXIT
summary=()
suites=0
failed=0
not_run=0

# What the summary says of a suite: the last line that begins with the suite's name and a colon, which is the suite's own account; else the sum of
# cargo's results; else its last line. Where such a line says "skipped" or "not run", the machine did not allow all of the suite, and that is said and
# counted apart.
conclude() { # name status file
    local said skipped
    said=$(sed -n "s/^$1: //p" "$3" | tail -1)
    [ -n "$said" ] || said=$(awk '
        /^test result:/ { for (i = 1; i < NF; i++) { if ($(i + 1) == "passed;") p += $i; if ($(i + 1) == "failed;") f += $i }; n++ }
        END { if (n) printf "%d passed, %d failed", p, f }' "$3")
    [ -n "$said" ] || said=$(grep -v '^[[:space:]]*$' "$3" | tail -1)
    if [ "$2" -ne 0 ]; then
        failed=$((failed + 1))
        said="FAILED: $said"
    else
        skipped=$(sed -n "s/^$1: \(\(skipped\|not run\).*\)/\1/p" "$3" | head -1)
        if [ -n "$skipped" ]; then
            not_run=$((not_run + 1))
            [ "$said" = "$skipped" ] || summary+=("$(printf '  %-16s %s' "$1" "$skipped")")
        fi
    fi
    summary+=("$(printf '  %-16s %s' "$1" "$said")")
    suites=$((suites + 1))
}

# The header, from C and from C++.
header() {
    local flags=(-Wall -Wextra -Werror -pedantic -O1 -I ../include)
    gcc -std=c99 "${flags[@]}" c/smoke.c "$lib/libdomain_store.a" -o "$log/smoke_c" || return 1
    "$log/smoke_c" || return 1
    if ! command -v g++ >/dev/null; then
        echo "header: every function answers as the header says, from C; g++ is not on the path, so C++ was not tried"
        return 0
    fi
    g++ -std=c++11 "${flags[@]}" -x c++ c/smoke.c -x none "$lib/libdomain_store.a" -o "$log/smoke_cpp" || return 1
    "$log/smoke_cpp" || return 1
    echo "header: every function answers as the header says, from C and from C++"
}

# A function whose frame is larger than 32 KiB touches its pages one after another, with a register that it takes for free. The compiler may do that behind
# a test, and did so once while a value stood in the register. So every such frame has to be made where its function begins, before any jump.
frames() {
    command -v objdump >/dev/null || { echo "frames: not run, since objdump is not on the path"; return 0; }
    objdump -d --no-show-raw-insn "$lib/libdomain_store.a" | awk '
        /^[0-9a-f]+ <.*>:$/ { name = $2; jumped = 0; next }
        $2 == "mov" && $3 == "%rsp,%r11" { made++; if (jumped) { late++; print "frames: made behind a jump in " name } }
        $2 ~ /^(j|call|ret)/ { jumped = 1 }
        END { printf "frames: %d large frames, %d of them made behind a jump\n", made, late; exit !(made > 0 && late == 0) }'
}

suite() { # name command..
    local name=$1
    shift
    echo
    echo "== $name"
    "$@" 2>&1 | tee "$log/$name"
    conclude "$name" "${PIPESTATUS[0]}" "$log/$name"
}

suite header header
suite frames frames
suite store cargo test --offline -p domain_store
suite stack cargo test --offline -p domain_lend
suite model cargo test --offline -p domain_model
suite sessions cargo test --offline -p domain_sessions -- --nocapture
suite bench cargo test --offline -p domain_bench
suite stepping cargo test --offline -p domain_stepping
# The stepping suite's second account: children that were killed.
kills=$(sed -n 's/^kills: //p' "$log/stepping" | tail -1)
[ -z "$kills" ] || summary+=("$(printf '  %-16s %s' "" "$kills")")

echo
echo "host-test:"
printf '%s\n' "${summary[@]}"
echo "host-test: $((suites - failed - not_run)) suites passed, $failed failed, $not_run not or not wholly run"
[ "$failed" -eq 0 ]
