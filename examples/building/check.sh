#!/bin/sh
# Checks the building by the program: its kits, single types by `cycles`, the three replays beside what is wanted of
# them, the pictures, and the same sheet over a port. The program is the proved one, which ./build at the top makes; the
# word may be another. Needs python3.
set -e
here=$(cd "$(dirname -- "$0")" && pwd)
program=${1:-$here/../../crates/sedona/out/sedona}
[ -x "$program" ] || { echo "run ./build at the top first, or give a program"; exit 1; }
program=$(cd "$(dirname -- "$program")" && pwd)/$(basename -- "$program")
folder=$(mktemp -d)
node=
trap '[ -z "$node" ] || kill "$node" 2>/dev/null; rm -rf "$folder"' EXIT
cp "$here"/*.toml "$here"/*.sedona "$folder"
cd "$folder"
kits=logic.toml,math.toml,timing.toml,house.toml
who="--users ann.users --secret node.secret"
fail() { echo "check.sh: $*"; exit 1; }
same() { diff -u "$1" "$2" || fail "$3"; }

[ "$("$program" check logic.toml math.toml timing.toml house.toml)" = ok ] || fail "a kit is refused"
echo "kits: ok"

# the first class of a source, as one component, for one cycle
cycles() { "$program" cycles "$1" 1 | tr '\n' ' '; }
wants() { [ "$(cycles "$1")" = "$2 fault=0 " ] || fail "cycles of $1: $(cycles "$1")"; }
wants logic.sedona "meta=0 in=false out=true"
wants math.sedona "meta=0 x1=-150 y1=700 x2=150 y2=350 in=0 out=525"
wants timing.sedona "meta=0 on1=360 off1=540 on2=960 off2=1320 minute=0 out=false"
echo "cycles: ok"

printf 'ann:%s\n' "$(printf 'ann:secret' | sha1sum | cut -d' ' -f1)" >ann.users
head -c 20 /dev/zero | tr '\0' '\1' >node.secret
[ "$("$program" new --kits $kits --store house.store --slot 4096)" = ok ] || fail "no new store"
python3 "$here/build.py" --records .
for name in morning trouble mended; do
    "$program" replay --kits $kits --store house.store $who --record $name.record >$name.all || fail "$name's replay"
    # a reply, a datagram message to the client 1, begins with the capital of its request, or with a refusal's `!`
    grep -Eq '^> 127\.0\.0\.1:2001 0001....6125....21' $name.all && fail "a request of $name is refused"
    grep -v '^> ' $name.all >$name.txt
    same "$here/$name.txt" $name.txt "the replay of $name prints something else"
    # what trouble and mended begin with is what the morning saved: they save nothing themselves
    [ $name != morning ] || "$program" show --kits $kits --store house.store >kept.txt
    "$program" show --kits $kits --store house.store | cmp -s - kept.txt || fail "$name changes what is kept"
    echo "replay of $name: ok"
done

of_sheet=$(echo $kits | tr , '\n' | sed "s|^|$here/|" | paste -sd,)
python3 "$here/../client/sheet.py" --kits "$of_sheet" <morning.txt >building.svg
python3 "$here/../client/sheet.py" --kits "$of_sheet" <trouble.txt >trouble.svg
for name in building trouble; do same "$here/$name.svg" $name.svg "the picture of the $name is another"; done
echo "pictures: ok"

"$program" new --kits $kits --store live.store --slot 4096 >/dev/null
port=$(python3 -c '
import socket
some = socket.socket(type=socket.SOCK_DGRAM)
some.bind(("127.0.0.1", 0))
print(some.getsockname()[1])')
"$program" run --kits $kits --store live.store $who --port "$port" --cycles 100000 --period 10 >live.txt &
node=$!
tries=0
until python3 "$here/../client/client.py" --port "$port" --user ann --password secret version >/dev/null 2>&1; do
    tries=$((tries + 1))
    [ $tries -lt 20 ] || fail "the node does not answer"
    sleep 0.5
done
python3 "$here/build.py" --port "$port"
# it is killed, as by a power cut; what was saved is in the store
kill -9 "$node"
wait "$node" 2>/dev/null || true
node=
"$program" show --kits $kits --store live.store | diff -u kept.txt - || fail "the sheet over a port is another"
echo "over a port: ok"
