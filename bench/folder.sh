# Sourced by the measurements, which say where they are in $here: goes to the folder of the first argument, or to a new one, and
# makes it an empty repository of crates. $top is this repository.
top=$(cd "$here/../.." && pwd)
work=${1:-$(mktemp -d)}
mkdir -p "$work/crates"
cd "$work"
[ -d .git ] || git init -q .
echo 'Handles allowed: none.' > HANDLES
