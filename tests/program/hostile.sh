# What goes wrong: memory, calls on the system, files and journals, in many thousand runs (`tests/hostile`).
# shellcheck shell=sh

count_case
if command -v python3 >/dev/null; then
    "$root/tests/hostile/run" | tee seen/hostile
    counts=$(tail -n 1 seen/hostile | sed -n 's/^\([0-9]*\) passed, \([0-9]*\) failed$/\1 \2/p')
    counts=${counts:-0 1}
    passed=$((passed + ${counts% *}))
    failed=$((failed + ${counts#* }))
fi
