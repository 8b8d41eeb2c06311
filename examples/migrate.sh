#!/usr/bin/env bash
# A session that was begun with journals of format 1 goes on: the venue's two journals are moved to files of format 2, and `accept` sends on
# from them to a broker with new ones. The old journals stand in this file, byte by byte: an outbox of one report that was handed in and never
# sent, and an inbox without records. It listens at port 15641, or at the one in PORT: examples/migrate.sh
set -u
root=$(cd "$(dirname "$(readlink -f "$0")")/.." && pwd)
address=127.0.0.1:${PORT:-15641}
"$root/fixpgw" --version >/dev/null || exit
folder=$(mktemp -d)
trap 'kill $venue 2>/dev/null; rm -rf "$folder"' EXIT
venue=
cd "$folder" || exit

# the bytes of a file, in hexadecimal
bytes() { printf '%b' "$(printf '%s' "$@" | sed 's/../\\x&/g')"; }

# the header: FIXPJRN1 and eight zero bytes
header=464958504a524e310000000000000000
# a gate, kind 1 (an entry), 20 bytes of body: sender 1, its message 1, the payload of 10 bytes; and the closed byte
bytes $header 01 01 14000000 0100 0100000000000000 eb500000080064000100 00 >old-out.jrn
bytes $header 00 >old-in.jrn

for box in out in; do
    "$root/fixpgw" migrate old-$box.jrn venue-$box.jrn || exit 1
done
"$root/fixpgw" format broker-out.jrn broker-in.jrn || exit 1
echo '1 eb500000080064000100' >reports.txt
: >orders.txt
"$root/fixpgw" accept "$address" 1 "$root/examples/venue.toml" reports.txt venue-out.jrn venue-in.jrn venue.out >venue.said 2>venue.told &
venue=$!
"$root/fixpgw" connect "$address" 10 "$root/examples/broker.toml" orders.txt broker-out.jrn broker-in.jrn - 2>broker.told
wait $venue
sed 's/^/venue: /' venue.said
"$root/fixpgw" journal venue-out.jrn venue-in.jrn - | sed -n 's/^at 0 entry/moved: entry/p'
