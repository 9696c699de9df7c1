# For the scripts beside it: rows of commands are run in turns, and the best of three runs of each is printed as a table.
#   row NAME PROGRAM COMMAND   a row, left out if PROGRAM is named and isn't installed; COMMAND is bash, run in $place
#   print_table HEAD           runs all rows, and prints HEAD and the table
set -eu
export LC_ALL=C
ours="$(cd "$(dirname "${BASH_SOURCE[0]}")/../.." && pwd)/crates/distinct/out/distinct"
[ -x "$ours" ] || { echo "distinct is not built: cd crates/distinct && rt run"; exit 1; }
timer=$(type -P time) || { echo "GNU time is not installed: apt-get install time"; exit 1; }
place="$(mktemp -d)"
trap 'rm -rf "$place"' EXIT
export ours place

names=() commands=()
row() {
    [ -z "$2" ] || type -P "$2" > "$place/found" || return 0
    names+=("$1") commands+=("$3")
}

# The least seconds and the least memory of three runs, each with its answer.
print_table() {
    declare -A seconds memory answers
    local number took most
    for _ in 1 2 3; do
        for number in "${!names[@]}"; do
            rm -f "$place/base"
            "$timer" -f '%e %M' -o "$place/took" bash -c "cd \"$place\"; ${commands[$number]}" > "$place/answer" 2> "$place/said" || { echo "${names[$number]} fails:"; cat "$place/said"; exit 1; }
            read -r took most < <(tail -n 1 "$place/took")
            seconds[$number]=$(printf '%s\n%s\n' "${seconds[$number]:-$took}" "$took" | sort -g | head -n 1)
            memory[$number]=$(printf '%s\n%s\n' "${memory[$number]:-$most}" "$most" | sort -g | head -n 1)
            answers[$number]=$(tail -n 1 "$place/answer")
        done
    done
    printf '%s\n\n| | last line of the answer | seconds | memory, MiB |\n|---|---|---|---|\n' "$1"
    for number in "${!names[@]}"; do
        printf '| %s | %s | %s | %s |\n' "${names[$number]}" "${answers[$number]}" "${seconds[$number]}" "$((memory[$number] / 1024))"
    done
}
