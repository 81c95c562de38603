#!/bin/sh
# examples/backup.sh PID DATA TO: a backup of the folder of a broker that runs.
#
# PID is the broker's process, or several of which it is one, as `pidof kbroker` tells them. DATA is its data folder, TO a folder that is
# made. The broker stands still (SIGSTOP) while its files are linked into a folder beside DATA and their lengths are noted. Then it goes on,
# and the files are copied up to these lengths, since a file only grows at its end. So the backup is what a broker leaves that was killed at
# that moment: every record that was acknowledged by then.
#
# It prints how many files and bytes were copied, and for how long the broker stood still. Restore by copying all files of the backup into
# an empty folder. Status 1, and a line that says why, where no whole backup was made.
set -eu
umask 077

fail() {
    echo "backup: $1" >&2
    exit 1
}

[ $# = 3 ] || fail "say PID DATA TO"
pid="" data=$(realpath "$2") to=$3
# On the file system of DATA, as links need. It is the mark of a backup under way, too.
moment=$data.moment

# (`find` takes a pattern)
named=$(printf %s "$data" | sed 's/[][*?\\]/\\&/g')

# Whether a process serves DATA: it alone holds the lock of the folder, which it has open.
serves() {
    for fd in $(find "/proc/$1/fd" -lname "$named" -printf '%f ' 2> /dev/null); do
        ! grep -qs '^lock:.*FLOCK.*WRITE' "/proc/$1/fdinfo/$fd" || return 0
    done
    return 1
}

for it in $1; do
    ! serves "$it" || pid=$it
done
[ "$pid" ] || fail "process $1 does not serve $data"
! find "$data" -maxdepth 1 -name '*.seg' -type l | grep . >&2 || fail "these files are links: copy the folder with the broker stopped"
[ ! -e "$to" ] || fail "$to is there already"
[ -d "$(dirname "$to")" ] || fail "there is no folder $(dirname "$to")"
mkdir "$moment" 2> /dev/null ||
    fail "$moment is there: another backup runs, or one was cut off (then kill -CONT $pid, and remove that folder)"

stopped=
clean() {
    [ -z "$stopped" ] || kill -CONT "$pid" 2> /dev/null || true
    rm -rf "$moment"
}
trap clean EXIT
trap 'exit 1' HUP INT TERM

nanoseconds() { date +%s%N; }

# Waits until the process stands still: what it asked of the system before has ended then.
stand_still() {
    kill -STOP "$pid" || fail "process $pid cannot be stopped"
    while :; do
        # read once a turn, since it may become still at any moment
        case $(sed -n 's/^State:[[:space:]]*//p' "/proc/$pid/status") in
        [Tt]*) return ;;
        [RSD]*) ;;
        *) fail "process $pid has ended" ;;
        esac
    done
}

began=$(nanoseconds)
stopped=1
stand_still
find "$data" -maxdepth 1 -name '*.seg' -type f -exec ln -t "$moment" {} +
find "$moment" -name '*.seg' -printf '%s %f\n' > "$moment/lengths"
kill -CONT "$pid"
stopped=
still=$((($(nanoseconds) - began) / 1000000))

mkdir "$to"
files=0 all=0
while read -r bytes file; do
    head -c "$bytes" "$moment/$file" > "$to/$file"
    [ "$(stat -c %s "$to/$file")" = "$bytes" ] || fail "$file could not be copied whole"
    files=$((files + 1)) all=$((all + bytes))
done < "$moment/lengths"
sync -f "$to"
echo "files $files, bytes $all, the broker stood still for $still ms"
