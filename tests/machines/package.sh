#!/bin/bash
# Makes the Debian packages (deploy/deb) and tries them as a new user would, in a system of its own that debootstrap
# makes: lintian without an error; two runs make the same bytes; dpkg takes the server's without the client's not, nor a
# newer one of the two alone; with what they depend on and nothing else each command answers --help, and says in a sentence what it lacks. Then a
# site is written, the store made, the unit's command started as its user, outer tokens made and one ended, orders with
# curl and the command wanekupo through nginx, a part with its record and its request for a certificate, another one by
# `wanekupo run`, the page of the yield, a backup, and a purge, which leaves the books and the tokens, and no bytecode.
#
#   package [--program P] [--base FOLDER] [--prepare]
#
# As root, on Debian, with lintian, debootstrap, curl and openssl. With --base the fresh system is kept in FOLDER, and a
# next run takes it from there. A unit can't run in such a system: systemd-analyze reads it, and its command is run by
# hand. With --prepare the packages are made and lintian reads them, and no more. Ports 880 and 8443 must be free. The
# status is 1 where anything is otherwise.
# shellcheck disable=SC2016  # what other shells and dpkg expand is in quotes
set -euo pipefail
top=$(cd "$(dirname "$0")/../.." && pwd)
program=$top/crates/station/out/station base='' is_prepared=
while [ $# -gt 0 ]; do
    case $1 in
        --program) program=$(realpath "$2") ;;
        --base) base=$(realpath -m "$2") ;;
        --prepare) is_prepared=yes; shift; continue ;;
        -h | --help) sed -n '2,/^# shellcheck/s/^# \{0,1\}//p' "$0" | sed '$d'; exit ;;
        *) "$0" --help >&2; exit 2 ;;
    esac
    shift 2
done
room=$(mktemp -d)
root=$room/root
served=
ended() {
    [ -z "$served" ] || kill "$served" 2>/dev/null || true
    [ ! -f "$root/run/nginx.pid" ] || kill "$(cat "$root/run/nginx.pid")" 2>/dev/null || true
    mountpoint -q "$root/proc" && umount "$root/proc"
    rm -rf "$room"
}
trap ended EXIT
step() { printf '%s\n' "- $1"; }
same() { if [ "$2" != "$3" ]; then printf 'package: %s: %s, and not %s\n' "$1" "$2" "$3" >&2; exit 1; fi; }
in_root() { DEBIAN_FRONTEND=noninteractive LC_ALL=C TMPDIR=/tmp chroot "$root" "$@"; }

step 'the packages, and lintian'
{ read -r deb && read -r client_deb; } < <("$top/deploy/deb" --program "$program" "$room")
lintian --allow-root --fail-on error "$deb" "$client_deb"
[ -z "$is_prepared" ] || exit 0

step 'made once more they are the same bytes'
mkdir "$room/again"
"$top/deploy/deb" --program "$program" "$room/again" > "$room/made"
for it in "$deb" "$client_deb"; do cmp "$it" "$room/again/$(basename "$it")"; done

step 'a fresh system'
if [ -z "$base" ]; then base=$room/base; fi
if [ ! -e "$base/etc/debian_version" ]; then debootstrap --variant=minbase bookworm "$base" > "$room/debootstrap.log"; fi
cp -a "$base" "$root"
mount -t proc proc "$root/proc"
echo '127.0.0.1 localhost' > "$root/etc/hosts"

cp "$deb" "$client_deb" "$root/tmp/"
deb=/tmp/$(basename "$deb") client_deb=/tmp/$(basename "$client_deb")
in_root apt-get update -qq
installs() { in_root apt-get install -y -qq --no-install-recommends "$@" >> "$room/install.log" 2>&1; }
refused() { if in_root dpkg -i "$2" > "$room/told" 2>&1 || ! grep -q "$3" "$room/told"; then echo "package: $1" >&2; cat "$room/told" >&2; exit 1; fi; }
bytecode() { (cd "$root" && find usr/share/wanekupo* usr/lib/python3 -name '*.pyc' | LC_ALL=C sort); }

step "each package, with what it depends on alone"
refused "the server's was taken without the client's" "$deb" 'wanekupo depends on wanekupo-client (= '
grep '^ *wanekupo depends on wanekupo-client' "$room/told"
in_root dpkg --purge wanekupo > "$room/purge.log" 2>&1
installs "$client_deb"
helps() {
    in_root "$@" --help < /dev/null > "$room/help" 2> "$room/told" && [ -s "$room/help" ] && [ ! -s "$room/told" ] && return
    echo "package: $* --help" >&2; cat "$room/told" >&2; exit 1
}
helps wanekupo
commands=$(sed -n 's/^    \([a-z][a-z-]*\)\( .*\)\{0,1\}$/\1/p' "$room/help")
for word in $commands; do helps wanekupo "$word"; done
installs "$deb"
compiled=$(bytecode)
programs=$(in_root sh -c 'find -L $(dpkg -L wanekupo wanekupo-client) -maxdepth 0 -type f -perm -100 -path "/usr/*"' | grep -v /doc/)
for program in $programs; do helps "$program"; done
printf '  %d commands of wanekupo and %d programs answer --help\n' "$(wc -w <<< "$commands")" "$(wc -w <<< "$programs")"

step 'what they lack is a sentence'
lacks() {
    if in_root env HOME=/root "${@:2}" < /dev/null > "$room/told" 2>&1 || ! grep -qiF "$1" "$room/told" || grep -q Traceback "$room/told"; then
        echo "package: ${*:2} doesn't say: $1" >&2; cat "$room/told" >&2; exit 1
    fi
}
touch "$root/root/a1.journal"
lacks 'there is no rsync' wanekupo --journal /root/a1.journal ship-journal /root/there
lacks 'there is no nginx' station-token seat a1 --customer acme
in_root install -m 600 -o station -g station /etc/hostname /var/lib/station/books.db
in_root install -d -m 700 -o station -g station /var/backups/station
lacks 'there is no command lvs' /usr/share/wanekupo/backup --snapshot lvm --site /etc/station/site.toml \
    --db /var/lib/station/books.db --into /var/backups/station
rm -r "$root/var/lib/station/books.db" "$root/var/backups/station"
lacks 'it is no backup' /usr/share/wanekupo/restore /tmp/gone /etc/station/site.toml
rm "$root/root/a1.journal" "$root/var/lib/station/restore.lock"

step 'one of the two is not upgraded alone, and both are'
newer() {
    in_root dpkg-deb -R "$1" /tmp/newer
    sed -i "s/$number/$number.1/g" "$root/tmp/newer/DEBIAN/control"
    in_root dpkg-deb -b /tmp/newer "$2" > /dev/null
    rm -r "$root/tmp/newer"
}
number=$(in_root dpkg-query -W -f '${Version}' wanekupo)
newer "$deb" /tmp/newer.deb
newer "$client_deb" /tmp/newer-client.deb
refused "the server's was taken alone" /tmp/newer.deb 'wanekupo breaks wanekupo-client (<< '
refused "the client's was taken alone" /tmp/newer-client.deb 'wanekupo-client breaks wanekupo (<< '
installs /tmp/newer.deb /tmp/newer-client.deb
same 'both versions' "$(in_root dpkg-query -W -f '${Version} ' wanekupo wanekupo-client)" "$number.1 $number.1 "
refused "the client's of before was taken alone" "$client_deb" 'wanekupo-client breaks wanekupo (>> '
installs --allow-downgrades "$deb" "$client_deb"

step 'installed'
installs nginx-light nftables openssl
same 'its version' "$(in_root station --version)" "station $("$top/tools/version")"
same "the client's version" "$(in_root wanekupo --version)" "wanekupo $("$top/tools/version")"
same 'its user and mode' "$(in_root stat -c '%U %a' /var/lib/station)" 'station 700'
same 'a unit that systemd-analyze finds something in' "$(in_root systemd-analyze verify station.service 2>&1)" ''
in_root systemd-analyze security --offline=true station.service 2>/dev/null | tail -1 | sed 's/^[^O]*/  /'
same 'a unit that is enabled' "$(in_root systemctl is-enabled station.service 2>/dev/null || true)" disabled

same 'the home of the user station, which has no file of his' "$(in_root getent passwd station | cut -d : -f 6)" /

step 'a site, and the store'
in_root install -m 640 -o root -g station /usr/share/doc/wanekupo/examples/site.toml /etc/station/site.toml
in_root setpriv --reuid station --regid station --init-groups station replay --site /etc/station/site.toml --db /var/lib/station/books.db < /dev/null
command=$(sed -z 's/\\\n/ /g' "$root/usr/lib/systemd/system/station.service" | sed -n 's/^ExecStart=//p')
in_root setpriv --reuid station --regid station --init-groups --inh-caps -all,+net_bind_service \
    --ambient-caps -all,+net_bind_service --bounding-set -all,+net_bind_service --no-new-privs \
    sh -c "cd /var/lib/station && exec $command" < /dev/null > "$room/said" 2>&1 &
served=$!
for _ in $(seq 100); do grep -q listening "$room/said" && break; sleep 0.1; done
same 'what the server said' "$(cat "$room/said")" 'listening on 127.0.0.1:880'

step 'outer tokens, and nginx by the file of the package'
# The server itself, and not the shell that waits for it.
served=$(pgrep -P "$served" || echo "$served")
openssl req -x509 -newkey rsa:2048 -nodes -days 2 -subj /CN=localhost -addext subjectAltName=DNS:localhost \
    -keyout "$root/etc/station/key.pem" -out "$root/etc/station/cert.pem" 2> /dev/null
token() { in_root station-token "$@" 2> "$room/told"; }
for seat in a1:abc @manager:test; do
    printf %s "${seat#*:}" > "$root/tmp/known"
    token --no-reload seat "${seat%:*}" --known /tmp/known
done
token --no-reload add a1 --to /tmp/a1.token
token --no-reload add @manager --look --to /tmp/office.token
same 'their file' "$(in_root stat -c '%U %a' /etc/station/tokens.conf)" 'root 600'
line1=$(cat "$root/tmp/a1.token") office=$(cat "$root/tmp/office.token")
cp "$root/usr/share/doc/wanekupo/examples/nginx.conf" "$root/etc/nginx/nginx.conf"
in_root nginx -g 'pid /run/nginx.pid;'

step 'requests through nginx, with curl and with wanekupo'
asked() { curl -sS --cacert "$root/etc/station/cert.pem" -H "Authorization: Bearer $1" -w ' %{http_code}' "https://localhost:8443$2" "${@:3}"; }
mkdir -m 700 "$root/root/spool"
cat > "$root/etc/wanekupo/client.toml" <<'EOF'
url = "https://localhost:8443"
ca = "/etc/station/cert.pem"
token = "/tmp/a1.token"
state = "/root/a1.json"
spool = "/root/spool"
EOF
client() { in_root env HOME=/root wanekupo "$@"; }
made='{"first":998,"issuer":"acme-ca","mac":null,"macs":0,"name":"o1","next":"A998","not_before":null,"prefix":"A","quantity":2,"width":3}'
same 'an order' "$(asked "$line1" /v1/order -d '{"nr":1,"name":"o1","issuer":"acme-ca","prefix":"A","width":3,"first":998,"quantity":2,"macs":0}')" "$made 200"
same 'the client shows it' "$(client order o1)" "$made"
printf 'serial,key_sha256\nA998,%064d\n' 1 > "$root/root/serials.csv"
same 'the client imports' "$(client import acme-ca /root/serials.csv)" '{"added":1,"before":0,"present":0}'
same 'the office' "$(asked "$office" /v1/site/report | tail -1)" ' 200'
for stranger in zzz abc test; do same 'a stranger' "$(asked $stranger /v1/report)" '{"error":"unknown_token","no":6} 401'; done
same 'an office that orders' "$(asked "$office" /v1/order -d '{}')" '{"error":"wrong_caller","no":8} 403'
late=$(token add a1 --look); sleep 0.5
same 'a token more' "$(asked "$late" '/v1/order?name=o1')" "${made/A998/A999} 200"
token revoke a1:2; sleep 0.5
same 'which has ended' "$(asked "$late" '/v1/order?name=o1')" '{"error":"unknown_token","no":6} 401'
map=$(sha256sum < "$top/python/wanekupo/chips/families/none/map.toml" | cut -c 1-64) part=020000000001
same 'a map of the package' "$(client map /usr/share/wanekupo/maps/none.toml)" "{\"map\":\"$map\"}"
client register o1 "$map" --part $part > "$room/registered"
client plan $part > "$room/planned"
openssl req -new -newkey ec -pkeyopt ec_paramgen_curve:prime256v1 -nodes -subj /CN=part -keyout "$room/part.key" \
    -out "$root/root/part.csr" 2> /dev/null
key=$(openssl pkey -in "$room/part.key" -pubout -outform DER | sha256sum | cut -c 1-64)
record='"issuer":"acme-ca","key_sha256":"'$key'","mac":null,"not_after":"99991231235959Z","not_before":null,"serial":"A999"'
same 'a record' "$(client identity $part --csr /root/part.csr)" "{\"chip\":\"$part\",$record}"
same 'its request' "$(sha256sum < "$root/root/spool/A999.csr")" "$(sha256sum < "$root/root/part.csr")"

step 'the pages: each link of theirs leads to a file, they have no script, and the tutorial has its two'
cat > "$root/tmp/links.py" <<'EOF'
import pathlib, re
links, scripts = [], []
for folder in map(pathlib.Path, ("/usr/share/doc/wanekupo", "/usr/share/doc/wanekupo-client")):
    for page in [*folder.glob("*.md"), *folder.glob("*.html"), *(folder / "docs").resolve().rglob("*.*")]:
        form = {".md": r"\]\(([^)#\s]+)", ".html": r'(?:href|src)="([^"#]+)'}.get(page.suffix)
        text = page.read_text("utf-8") if form else ""
        links += [(page, it) for it in re.findall(form, text) if ":" not in it] if form else []
        scripts += [page] * text.count("<script")
pages = {page for page, _ in links}
print([f"{page}: {it}" for page, it in links if not (page.parent / it).exists()], scripts, len(pages) > 40, len(links) > 900)
EOF
same 'links that lead nowhere' "$(in_root python3 /tmp/links.py)" '[] [] True True'
same 'the map of the tutorial' "$(in_root station check-map /usr/share/doc/wanekupo/examples/map.toml)" 'ok esp32-sample 4 7'
grep -q 'serve --site /usr/share/doc/wanekupo/examples/site.toml ' "$root/usr/share/doc/wanekupo-client/docs/first-chip.md"

step 'a bench, by a recipe and the hook of the example'
client make-order o2 acme-ca B --width 3 --first 1 --quantity 1 --yes > "$room/ordered"
install -m 700 "$root/usr/share/doc/wanekupo-client/examples/thermostat/make-csr" "$root/root/make-csr"
cat > "$root/root/part.toml" <<'EOF'
name = "part"
order = "o2"
map = "none.toml"
family = "none"
page = 0
[sockets]
one = ["echo", "02:00:00:00:00:02"]
[hooks]
before_identity = { command = ["./make-csr"], timeout = 20 }
EOF
printf '1\n' | in_root env HOME=/root timeout -s INT 12 wanekupo run /root/part.toml > "$room/bench" 2>&1 || true
same 'what the bench said' "$(grep -o 'PASS .*' "$room/bench")" \
    'PASS ship 020000000002 The chip is shipped as B001: take it out, green box.'
same 'what the bench keeps of it' "$(in_root ls /root/a1.json.bench/chips)" ''
same 'its request' "$(openssl req -in "$root/root/spool/B001.csr" -noout -subject)" 'subject=CN = 020000000002'

step 'health, and the page of the yield'
same 'health' "$(curl -sS --cacert "$root/etc/station/cert.pem" -w '%{http_code}' https://localhost:8443/health)" "$(printf 'up\n200')"
in_root nft -c -f /usr/share/doc/wanekupo/examples/station.nft
same 'the page of the yield' "$(curl -sS --cacert "$root/etc/station/cert.pem" -D "$room/head" https://localhost:8443/yield | sha256sum)" "$(sha256sum < "$top/clients/web/yield.html")"
grep -qi '^content-security-policy:' "$room/head" || { echo 'package: no policy' >&2; exit 1; }

step 'stopped, and purged: the books stay'
kill "$served"; wait; served=
kill "$(cat "$root/run/nginx.pid")"
in_root setpriv --reuid station --regid station --init-groups /usr/share/wanekupo/backup --site /etc/station/site.toml --db /var/lib/station/books.db /tmp/kept > "$room/kept"
in_root station-site check /etc/station/site.toml > "$room/checked"
same 'bytecode that was not there behind the installation' "$(bytecode)" "$compiled"
in_root apt-get purge -y -qq wanekupo wanekupo-client > "$room/purge.log" 2>&1
same 'the books' "$(in_root sh -c 'ls /var/lib/station')" "$(printf 'books.db\nbooks.db-wal')"
same 'the site file' "$(in_root sh -c 'ls /etc/station')" "$(printf 'cert.pem\nkey.pem\ntokens.conf\ntokens.conf.lock')"
same 'the program' "$(in_root sh -c 'command -v station || command -v wanekupo || true')" ''
same 'what is left of the client' "$(in_root sh -c 'ls -d /usr/lib/python3/dist-packages/wanekupo* /etc/wanekupo /usr/share/wanekupo* 2>/dev/null')" ''
echo 'the packages do what their pages say'
