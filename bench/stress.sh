#!/usr/bin/env bash
# Drives the interlock from seven threads, and looks for one legal history of all that they were told, in the order of
# time: a clock counts when calls begin and end. They send each other letters with receipts, and who reads one has to be
# answered after it.
#
#   bench/stress.sh [SEED [CALLS]]               1 and 10,000,000 if absent
#   bench/stress.sh planted BUG [SEED [CALLS]]   the same with a planted bug, which has to be found; 1 and 200,000
#
# Seven threads call one interlock, each as one machine: calls of all kinds, chosen by the seed. The watch stops the cell
# now and then, and soon resumes. Starts, first stamps, tries, pauses and the number of letters differ from run to run.
# Each thread writes down what it was told, when the call began and ended, and the stamp of each letter that it reads. In
# the end the watch meets all others and looks at each zone.
#
# The program in bench/stress is proved and built in a copy of the repository, since it isn't part of it; check.py there
# runs and checks it. A bug is planted by the edits of bench/stress/planted (docs/ATTACKS.md has their form). The prover
# refuses such bugs, so the program is then run unproved. Three bugs have to be found without the clock:
#
# - plain_store: a load and a plain store instead of the compare-exchange;
# - receipt_tells_nothing, accept_forgets: of the lazy interlock below, where a receipt carries no word, or accept keeps
#   none. All answers fit one history, in the order of each caller. The letters show that it isn't the right one.
#
# In three others, late answers, nothing is wrong but the order of time. All answers fit one history, in the order of
# each caller, after the letters that it read; so nothing may be found without the clock, and with it they have to be:
#
# - lazy: a call that the word which its pass found last would answer without a change is answered so, with no load. A
#   receipt carries that word, and accept keeps the later of two. A call by ask_after loads;
# - loads_ahead: a call is answered by the word that the call before it loaded, and loads the word for the next one;
# - keeps_the_lost_word: a call begins with the word that the call before it found instead of its own, where that one
#   lost its last exchange: it was Busy, abandoned, or refused then.
set -euo pipefail
usage() { sed -n '2,/^set/{/^#/s/^# \{0,1\}//p}' "$0"; }
case ${1:-} in -h | --help) usage; exit 0 ;; esac
command -v rt >/dev/null || { echo "bench/stress.sh: the Rattle kit isn't on the path: add its folder bin/ to PATH" >&2; exit 2; }
top=$(cd "$(dirname "$0")/.." && pwd)
planted=()
is_late=false
calls=10000000
if [ "${1:-}" = planted ]; then
    calls=200000
    case ${2:-} in
        plain_store) planted=("$2") ;;
        receipt_tells_nothing | accept_forgets) planted=(lazy "$2") ;;
        lazy | loads_ahead | keeps_the_lost_word) planted=("$2") is_late=true ;;
        *) usage >&2; exit 2 ;;
    esac
    shift 2
fi
seed=${1:-1}
calls=${2:-$calls}
work=$(mktemp -d)
trap 'rm -rf "$work"' EXIT
for crate in cell_types cell_rules cell_word word_interlock cell_interlock; do
    mkdir -p "$work/crates/$crate"
    cp -r "$top/crates/$crate"/* "$work/crates/$crate"
    grep "^$crate[: ]" "$top/crates.txt" >> "$work/crates.txt"
done
cp "$top/HANDLES" "$work"
here=$work/crates/bench_stress
mkdir -p "$here/src"
# its files have other names here: the gate accepts sources and proofs only in crates
for it in main caller letters notes; do
    cp "$top/bench/stress/$it.txt" "$here/src/$it.rt"
done
for it in work by_steps last_looks run; do
    mkdir -p "$here/proofs/$it"
    cp "$top/bench/stress/$it.txt" "$here/proofs/$it/Invariants.antt"
done
echo 'bench_stress: cell_interlock cell_rules cell_types atomic_table crossbeam_channel' >> "$work/crates.txt"
cd "$here"

if [ ${#planted[@]} != 0 ]; then
    for bug in "${planted[@]}"; do
        python3 - "$top/tools" "$work/crates/word_interlock" "$top/bench/stress/planted/$bug.txt" <<'END'
import sys
sys.dont_write_bytecode = True
sys.path.insert(0, sys.argv[1])
import edits
texts, why = edits.edited_texts(sys.argv[2], sys.argv[3])
if why:
    sys.exit(f"{sys.argv[3]}: {why}")
for path, text in texts.items():
    with open(f"{sys.argv[2]}/{path}", "w", encoding="utf-8") as it:
        it.write(text)
END
    done
    # whether check.py finds nothing (0) or something (1); what an unproved run writes is cut at 1 MiB, so these are short
    finds() {
        python3 "$top/bench/stress/check.py" "$@" "$seed" "$calls" 33600 "${RT:-rt}" try
    }
    status=0
    finds --no-clock || status=$?
    if [ "$is_late" = true ]; then
        [ "$status" = 0 ] || { echo "without the clock it wasn't so that nothing was found"; exit 1; }
        finds || status=$?
    fi
    [ "$status" = 1 ] || { echo "the planted bug wasn't found"; exit 1; }
    echo "the planted bug was found"
    exit 0
fi

if ! "${RT:-rt}" run <<< '3 0 2 100 50 100 8 20 1' > "$work/built" 2>&1; then
    cat "$work/built"
    exit 1
fi
python3 "$top/bench/stress/check.py" "$seed" "$calls" 420000 ./out/bench_stress
