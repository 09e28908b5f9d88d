# What the scripts beside this one share. It is sourced by them, at the top of the repository.

work=$(mktemp -d)
trap 'rm -rf "$work"' EXIT

# number_asked THINGS NUMBER [ARGUMENT..]: the number of THINGS that the arguments ask for, NUMBER where there are none.
number_asked() {
    [[ $# -le 3 && ${3-$2} =~ ^[1-9][0-9]*$ ]] || { echo "usage: $0 [NUMBER-OF-$1]" >&2; exit 1; }
    echo "${3-$2}"
}

# build SOURCE CRATE: the two programs, as $work/plain and $work/rattle. To build is to run once too.
build() {
    local input=/dev/null
    [[ ! -f crates/$2/stdin ]] || input=crates/$2/stdin
    rustc -O -o "$work/plain" "tests/bench/$1"
    (cd "crates/$2" && rt run) <"$input" >"$work/rt" 2>&1 || { cat "$work/rt"; exit 1; }
    cp "crates/$2/out/$2" "$work/rattle"
}

# take_turns TURNS THINGS INPUT NUMBER: demands the same lines of both, and prints them and how many THINGS a second
# each took on. The two take turns, so that what else the machine does slows both; each one's best turn counts.
take_turns() {
    local -A best=([plain]=0 [rattle]=0)
    local program rate
    for _ in $(seq "$1"); do
        for program in plain rattle; do
            "$work/$program" "$4" <"$3" >"$work/printed"
            grep -v "^$2 a second " "$work/printed" >"$work/$program.lines"
            rate=$(awk -v head="$2 a second " 'index($0, head) == 1 { print $4 }' "$work/printed")
            if ((rate > best[$program])); then best[$program]=$rate; fi
        done
        diff "$work/plain.lines" "$work/rattle.lines"
    done
    cat "$work/plain.lines"
    awk -v plain="${best[plain]}" -v rattle="${best[rattle]}" -v turns="$1" -v things="$2" 'BEGIN {
        printf "plain %d and Rattle %d %s a second, the best of %d turns: ratio %.2f\n", plain, rattle, things, turns, plain / rattle
    }'
}
