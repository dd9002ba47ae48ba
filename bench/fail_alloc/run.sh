#!/usr/bin/env bash
# Lets each allocation of the proved program fail in turn, on real files, and shows what `init`, `run`, `init-console` and `receive`
# answered; and each one of the test that runs out of memory, on a board in memory.
# It builds no Rattle: it takes crates/pef_cli/out/pef_cli, which ./demo at the top proves and builds, and the tests of crates/edge_trials,
# which `rt test` builds there.
# usage: run.sh [--quick]      the quick mode leaves the test out and runs behind the merge gate
# Whatever fails: at status 10 and 1 the files are as they were, but at 10 of `receive`, which takes memory for each row; and a later
# call with memory ends with status 0, with the state file and the plant of calls without a failure.
set -eu
quick=
[ "${1:-}" = --quick ] && quick=yes
here=$(cd "$(dirname "$0")" && pwd)
top=$(cd "$here/../.." && pwd)
program=$top/crates/pef_cli/out/pef_cli
tests=$top/crates/edge_trials/out/edge_trials_tests
[ -x "$program" ] || { echo "$program is missing: ./demo at the top proves and builds it" >&2; exit 1; }
[ -n "$quick" ] || [ -x "$tests" ] || { echo "$tests is missing: rt test in crates/edge_trials proves and builds it" >&2; exit 1; }
work=$(mktemp -d)
trap 'rm -rf "$work"' EXIT
gcc -O2 -shared -fPIC -o "$work/fail.so" "$here/fail.c"
cp "$top/crates/pef_cli/data/settings.toml" "$top/crates/pef_cli/data/script.txt" "$work/"
cd "$work"

trap_octets=306a02010004067075626c6963a45d06092b06010401986f010140040a0000020201060203040102430100303f303d060a2b06010401986f010101042f00112233445566778899aabbccddeeff000106efed80ffff202010203000005210200000000000ff0001869f0001c1
{
    echo "capture 00000001 3"
    echo "datagram 127.0.0.1:162 $trap_octets"
    echo "datagram 127.0.0.1:162 ${trap_octets/000106efed80/000206efed80}"
    echo "datagram 127.0.0.1:162 $trap_octets"
    echo end
} > capture.txt
echo 'ack_port = 9' > console.txt

# what is to be there at last
"$program" init whole settings.toml > /dev/null
cp whole made
"$program" run whole script.txt > /dev/null
"$program" init-console whole_ledger console.txt > /dev/null
cp whole_ledger made_ledger
"$program" receive whole_ledger capture.txt > /dev/null

wrong() {
    echo "allocation $number of $form: $1" >&2
    exit 1
}

# each FORM OTHER MADE WHOLE: until no allocation is left; MADE is what the form that formats makes, and WHOLE what the other one leaves
each() {
    form=$1
    for number in $(seq 1 1000); do
        rm -f state state.plant failed
        case $form in run | receive) cp "$3" state ;; esac
        status=0
        FAIL_ALLOC=$number FAIL_ALLOC_LOG=failed LD_PRELOAD=$work/fail.so "$program" "$form" state "$2" > out 2> err || status=$?
        if [ ! -e failed ]; then
            [ "$status" = 0 ] || wrong "status $status without a failure"
            echo "$form: $((number - 1)) allocations"
            return
        fi
        echo "$form: allocation $number fails: status $status: $(cat out err | paste -s -d ' ')"
        [ "$status" != 10 ] || grep -qx memory out err || wrong "neither output says memory"
        case $form,$status in
        *,0 | *,7 | *,8 | receive,10) ;;
        run,1 | run,10 | receive,1)
            cmp -s "$3" state || wrong "the state file changed"
            [ ! -s state.plant ] || wrong "a step was issued"
            ;;
        init*,1 | init*,10) [ ! -s state ] || wrong "the state file isn't empty" ;;
        *) wrong "status $status" ;;
        esac
        status=0
        "$program" "$form" state "$2" > out 2> err || status=$?
        case $form in
        run | receive)
            [ "$status" = 0 ] || wrong "the later call has status $status"
            cmp -s "$4" state || wrong "the state file isn't the whole one"
            cmp -s "$4.plant" state.plant || wrong "the plant isn't the whole one"
            ;;
        *)
            [ "$status" = 0 ] || [ "$status" = 11 ] || wrong "the later call has status $status"
            cmp -s "$3" state || wrong "the state file isn't the one made"
            ;;
        esac
    done
}

each init settings.toml made whole
each run script.txt made whole
each init-console console.txt made_ledger whole_ledger
each receive capture.txt made_ledger whole_ledger

[ -z "$quick" ] || exit 0
form=test
for number in $(seq 1 1000); do
    rm -f failed
    FAIL_ALLOC=$number FAIL_ALLOC_LOG=failed LD_PRELOAD=$work/fail.so "$tests" calls::memory::behind_want_of_memory_a_later_run_goes_on > out 2>&1 ||
        wrong "$(cat out)"
    if [ ! -e failed ]; then
        echo "test: $((number - 1)) allocations, each of which failed once, and the test passed"
        break
    fi
done
