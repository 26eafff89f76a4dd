#!/usr/bin/env bash
# Serves a package by the built program and asks it by curl, which shares no code with this repository: each route, what
# is not found, and another method; the port has to be bound on the loopback address alone. Compares status, headers and
# body with what stands below, prints the differences, and fails then.
#
#     scripts/build.sh
#     scripts/outside/desk/page_curl.sh [PORT]
#
# Where MMPKG names a built program, that one is asked.
set -eu -o pipefail

port=${1:-18080}
# shellcheck source=scripts/outside/lib/program.sh
source "$(dirname "$0")/../lib/program.sh" ""
program=$MMPKG
folder=$(mktemp -d)
trap 'kill "${server:-}" 2>/dev/null || true; rm -rf "$folder"' EXIT

"$program" init "$folder/a.mmpkg" >/dev/null
"$program" run "$folder/a.mmpkg" --at 0 >/dev/null <<'END'
srs,25832,ETRS89 / UTM zone 32N,EPSG,25832,projected metres,
pyramid,base,Base map,25832,500000000000,5600000000000,501024000000,5601024000000,two
matrix,base,0,1,1,256,256,4000000,4000000
matrix,base,1,2,2,256,256,2000000,2000000
table,spots,attributes,Spots
table,photos,media,Photos
row,spots,7,Well,,3
media,photos,3,image/jpeg,ffd8ff
relation,spot_photos,spots,photos,media
map,spot_photos,7,3
tile,base,1,0,1,89504e
END

# METHOD PATH and the response, its head's lines behind bars, its body in hexadecimal digits
cases() {
    cat <<'END'
GET /tiles/base/1/0/1|HTTP/1.1 200 OK|Content-Type: application/octet-stream|Content-Length: 3|Connection: close||89504e
GET /tiles/base/1/0/1?x=1|HTTP/1.1 200 OK|Content-Type: application/octet-stream|Content-Length: 3|Connection: close||89504e
GET /tiles/base/1/1/1|HTTP/1.1 404 Not Found|Content-Length: 0|Connection: close||
GET /tiles/base/01/0/1|HTTP/1.1 404 Not Found|Content-Length: 0|Connection: close||
GET /media/photos/3|HTTP/1.1 200 OK|Content-Type: image/jpeg|Content-Length: 3|Connection: close||ffd8ff
GET /related/spots/7|HTTP/1.1 200 OK|Content-Type: application/json|Content-Length: 66|Connection: close||5b7b226964223a332c226d617070696e67223a2273706f745f70686f746f73222c226e616d65223a226d65646961222c227461626c65223a2270686f746f73227d5d
GET /related/photos/3|HTTP/1.1 200 OK|Content-Type: application/json|Content-Length: 2|Connection: close||5b5d
GET /related/spots/8|HTTP/1.1 404 Not Found|Content-Length: 0|Connection: close||
POST /contents|HTTP/1.1 405 Method Not Allowed|Allow: GET|Content-Length: 0|Connection: close||
END
}

count=$(($(cases | wc -l) + 1))
"$program" serve "$folder/a.mmpkg" --port "$port" --count "$count" >"$folder/printed" &
server=$!
for _ in $(seq 600); do
    grep -q serving "$folder/printed" && break
    sleep 0.1
done

failures=0
# The port is bound on the loopback address alone, by the system's own tables of sockets that listen.
hex_port=$(printf '%04X' "$port")
bound=$(cat /proc/net/tcp /proc/net/tcp6 2>/dev/null |
    awk -v port=":$hex_port" '$4 == "0A" && substr($2, length($2) - 4) == port {print $2}')
if [ "$bound" != "0100007F:$hex_port" ]; then
    printf 'bound on\n%s\n  and not on 127.0.0.1 alone\n' "$bound"
    failures=$((failures + 1))
fi
while IFS= read -r line; do
    request=${line%%|*}
    wanted=${line#*|}
    curl -s -X "${request%% *}" -D "$folder/head" -o "$folder/body" "http://127.0.0.1:$port${request#* }"
    touch "$folder/body"
    told=$(tr -d '\r' <"$folder/head" | tr '\n' '|')$(xxd -p -c 0 "$folder/body")
    rm -f "$folder/body"
    if [ "$told" != "$wanted" ]; then
        printf '%s\n  wanted %s\n  told   %s\n' "$request" "$wanted" "$told"
        failures=$((failures + 1))
    fi
done < <(cases)

# The contents, read as JSON by Python.
curl -s "http://127.0.0.1:$port/contents" | python3 -c '
import json, sys
tables = json.load(sys.stdin)
assert [t["table"] for t in tables] == ["base", "photos", "spots"], tables
assert tables[0]["extent"] == [500000000000, 5600000000000, 501024000000, 5601024000000], tables
assert [list(t) == sorted(t) for t in tables] == [True] * 3, tables
' || failures=$((failures + 1))

status=0
wait "$server" || status=$?
server=
if [ "$status" != 0 ] || [ "$(cat "$folder/printed")" != "serving 127.0.0.1:$port" ]; then
    echo "serve ended with status $status and printed:"
    cat "$folder/printed"
    failures=$((failures + 1))
fi
if [ "$failures" != 0 ]; then
    echo "$failures of $count requests differ"
    exit 1
fi
echo "$count requests answered as they should be"
