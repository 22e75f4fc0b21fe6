#!/bin/sh
# The repository's own quick checks, which .ci/run makes after the gate: what ships, the launcher, and what documents show. If a tool
# that one of them needs is not there, it is skipped, and that is said. The status is 0 if each passed.
cd "$(dirname "$0")/.." || exit 1
passed=0 failed=0

made() {
    if "$@"; then
        passed=$((passed + 1))
    else
        failed=$((failed + 1))
        echo "checks: $1 failed"
    fi
}

# (the others try what ships: if that is stale, they have nothing to try)
made tools/dist.sh --check
[ "$failed" = 0 ] || { echo "checks: $passed passed, $failed failed"; exit 1; }
made tools/launcher/check.sh
if command -v python3 >/dev/null; then
    made tools/check.py dist/fire
    made tools/captures/check.py dist/fire
    made tools/wireshark/check.py dist/fire
    made tools/pointers.py
    made tools/counts.py --check
    made tools/wrong.py --check
    made tools/page/build_head.py --check
    made tools/page/test_page.py
else
    echo 'checks: skipped what is written in Python, since there is no python3'
fi
echo "checks: $passed passed, $failed failed"
[ "$failed" = 0 ]
