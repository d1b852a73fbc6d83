#!/usr/bin/env bash
# Runs henri on each refused sheet. Compares the line that it writes with the one in the sheet's first line, and its exit
# status with the one of that refusal: 5 for a sheet that is refused, 6 for one that is not admitted. Then mends the sheet by
# each of the edits that `mends` has for it, and looks whether henri admits it.
# Usage: sheets/refused/check.sh [HENRI]
# Without a word the program is the one that `rt run` or `rt ci` leaves in crates/henri.
set -u
program=$(realpath "${1:-$(dirname "$0")/../../crates/henri/out/henri}")
cd "$(dirname "$0")" || exit 2
[ -x "$program" ] || { echo "no program: first prove and build it"; exit 2; }
good=0
bad=0

differs() {
    echo "DIFFERS $1"
    bad=$((bad + 1))
}

for sheet in *.toml; do
    name=${sheet%.toml}
    wanted=$(sed -n '1s/^# //p' "$sheet")
    case $wanted in
    "sheet "*) status=5 ;;
    "refused "*) status=6 ;;
    *) status=none ;;
    esac
    got=$("$program" run <"$sheet")
    ended=$?
    mapfile -t edits < <(sed -n "s/^$name //p" mends)
    if [ "$wanted" != "$got" ] || [ "$status" != "$ended" ]; then
        differs "$sheet: wanted '$wanted' and $status, got '$got' and $ended"
        continue
    fi
    [ ${#edits[@]} -gt 0 ] || differs "$sheet: no mend"
    for edit in "${edits[@]}"; do
        if got=$(sed "$edit" "$sheet" | "$program" check); then
            echo "ok      $sheet: $wanted; mended by $edit"
            good=$((good + 1))
        else
            differs "$sheet: mended by $edit, and still '$got'"
        fi
    done
done
echo "$good ok, $bad differ"
[ "$bad" -eq 0 ]
