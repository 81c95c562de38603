#!/bin/bash
# Measures the broker's engine alone, without sockets: plays scripts of requests on the broker and on a plain C program, and prints
# what a request costs each, in processor time, as topics and idle connections grow in number, or groups and their members.
# The broker's executable is the first argument, or crates/kbroker/out/kbroker. Everything else goes into a new folder, which is
# removed in the end.
set -euo pipefail
export LC_ALL=C
requests=200000 rounds=12
here=$(cd "$(dirname "$0")" && pwd)
program=$(realpath "${1:-$here/../../crates/kbroker/out/kbroker}")
work=$(mktemp -d)
trap 'rm -rf "$work"' EXIT
mkdir "$work/scripts"
cd "$work/scripts"

# The crate's tables of CRC-32C, as C has them.
sed '/^[/#]/d; s/\[$/{/; s/\]/}/; s/^pub.*/static const uint32_t TABLES[16][256] = {/' \
    "$here/../../crates/kb_batch/src/crc/tables.rt" > ../tables.h
gcc -O2 -I.. -I"$here/.." -o ../script "$here/script.c"
gcc -O2 -I.. -I"$here/.." -o ../floor "$here/floor.c"
for user in {00..15}; do
    printf '[[user]]\nname = "u%s"\npassword = "pw"\ntenant = "t%s"\n' $user $user
done > ../kbroker.toml

broker() { "$program" script --config ../kbroker.toml; }

floor() { ../floor; }

# Writes a script without requests and one with them, of those words; both programs are to say the same to a few requests.
prepare() {
    ../script $1 2000 > few
    cmp <(broker < few) <(floor < few)
    rm few
    ../script $1 0 > "$1 0"
    ../script $1 $requests > "$1 1"
}

# Plays the scripts in turn on both, and prints for each: on which, its words, and the time in seconds.
TIMEFORMAT='%U %S'
play() {
    for _ in $(seq $rounds); do
        for script in *; do
            for player in broker floor; do
                echo -n "$player $script "
                { time $player < "$script" > /dev/null; } 2>&1
            done
        done
    done
    rm ./*
}

for bytes in 100 1000; do
    for what in Produce Fetch; do
        for numbers in "1 1" "1 100" "1 10000" "1000 1"; do prepare "$what $bytes $numbers"; done
        play
    done
    prepare "text $bytes 1 1"
    play
done > ../times
for what in Heartbeat Join; do
    for groups in 1 1000; do
        for members in 1 10 200; do prepare "$what $members $groups 1"; done
    done
    play
done >> ../times
awk -v n=$requests '
    {
        is_group = $2 == "Heartbeat" || $2 == "Join"
        script = $2 " of " $3 (is_group ? " members | " : " bytes | ") $4 " | " $5; loaded = $6; time = $7 + $8
        if (!(script in kinds)) { scripts[++count] = script; kinds[script] = is_group ? $2 : $2 $3 }
        if (!(($1, script, loaded) in best) || time < best[$1, script, loaded]) best[$1, script, loaded] = time
    }
    function cost(player, script) { return (best[player, script, 1] - best[player, script, 0]) / n }
    END {
        print "what | topics or groups | idle connections | broker: requests/s, us | plain C: the same | ratio | against the first of its kind"
        for (i = 1; i <= count; i++) {
            script = scripts[i]; kind = kinds[script]; b = cost("broker", script); c = cost("floor", script)
            if (!(kind in first)) first[kind] = b
            printf "%s | %.0f | %.2f | %.0f | %.2f | %.2f | %.2f\n", script, 1 / b, b * 1e6, 1 / c, c * 1e6, b / c, b / first[kind]
        }
    }' ../times
