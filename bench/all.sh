#!/usr/bin/env bash
# Every measurement and every comparison with a slow model, one after the other, with what each prints.
# usage: all.sh [--quick]      the quick mode names each script that works, and shows what one printed that fails; it runs behind the gate
set -eu
cd "$(dirname "$0")"
for script in kill/run.py model/run.py ledger/run.py live/run.py run/run.sh fail_alloc/run.sh fail_alloc/tests.sh snmp_trap/run.sh filter_table/run.sh asf_rmcp/run.sh; do
    if [ "${1:-}" = --quick ]; then
        log=$(mktemp)
        "./$script" --quick > "$log" 2>&1 || { cat "$log"; echo "bench/$script --quick fails"; exit 1; }
        rm "$log"
        echo "bench/$script works"
    else
        echo "== bench/$script"
        "./$script"
    fi
done
