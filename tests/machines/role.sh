#!/bin/bash
# Runs the Ansible roles of deploy/ansible with Debian's Ansible against a system of its own that debootstrap makes: the
# packages are built, and the playbook runs over a server and a station PC: without timers, with all of them set, and once
# more, which has to change nothing. What they made is looked at. A run that is killed has what it left read by the next
# one; a certificate that was half made is made; a link of the bench's user is followed nowhere. Then the server and nginx
# are started, a station asks with a token, the site grows by station-site as the pages have it, and the units of metrics
# and restarts run by the words that the roles wrote.
#
#   role [--program P] [--base FOLDER] [--prepare]
#
# As root, on Debian, with ansible, ansible-lint and debootstrap. With --base the fresh system is kept in FOLDER, and a
# next run takes it from there. With --prepare the roles are read and the packages made, and no more. No systemd runs in
# such a system, so units are enabled, and not started; a network namespace keeps the ports to itself. The status is 1
# where anything is otherwise.
set -euo pipefail
top=$(cd "$(dirname "$0")/../.." && pwd)
program=$top/crates/station/out/station base='' is_prepared=
while [ $# -gt 0 ]; do
    case $1 in
        --program) program=$(realpath "$2") ;;
        --base) base=$(realpath -m "$2") ;;
        --prepare) is_prepared=yes; shift; continue ;;
        *) sed -n '2,/^set /s/^# \{0,1\}//p' "$0"; exit 2 ;;
    esac
    shift 2
done
room=$(mktemp -d)
# The systems have no other folder for what is passing.
export TMPDIR=/tmp
ended() {
    for root in "$room/server" "$room/station"; do
        [ ! -f "$root/run/nginx.pid" ] || kill "$(cat "$root/run/nginx.pid")" 2> /dev/null || true
        [ ! -f "$root/tmp/pid" ] || kill "$(cat "$root/tmp/pid")" 2> /dev/null || true
        ! mountpoint -q "$root/proc" || umount "$root/proc"
        ! mountpoint -q "$root/dev" || umount "$root/dev"
    done
    rm -rf --one-file-system "$room"
}
trap ended EXIT
step() { printf '%s\n' "- $1"; }
same() { if [ "$2" != "$3" ]; then printf 'role: %s: %s, and not %s\n' "$1" "$2" "$3" >&2; exit 1; fi; }
in_server() { LC_ALL=C chroot "$room/server" "$@"; }
play() { (cd "$top/deploy/ansible" && ANSIBLE_LOCALHOST_WARNING=no ansible-playbook -i "$room/inventory" plant.yml "$@") > "$room/played" 2>&1; }
recap() { awk '/^PLAY RECAP/ {on = 1; next} on && NF {print $3, $4, $5, $6}' "$room/played" | tr '\n' ' '; }

step 'ansible-lint, by its strictest profile'
(cd "$top/deploy/ansible" && ansible-lint --offline --nocolor -q --profile production plant.yml roles)
(cd "$top/deploy/ansible" && ansible-playbook -i localhost, --syntax-check plant.yml > "$room/played" 2>&1) || { cat "$room/played" >&2; exit 1; }

step 'the packages, and two fresh systems'
{ read -r deb && read -r client_deb; } < <("$top/deploy/deb" --program "$program" "$room")
[ -z "$is_prepared" ] || exit 0
[ -n "$base" ] || base=$room/base
if [ ! -e "$base/etc/debian_version" ]; then
    debootstrap --variant=minbase --include=python3,python3-apt,systemd bookworm "$base" > "$room/debootstrap.log"
fi
for name in server station; do
    cp -a "$base" "$room/$name"
    echo '127.0.0.1 localhost' > "$room/$name/etc/hosts"
    mount -t proc proc "$room/$name/proc"
    mount --bind /dev "$room/$name/dev"
done
cp "$top/crates/station/data/site.toml" "$room/site.toml"
printf abc > "$room/a1.token"
cat > "$room/inventory" <<EOF2
[wanekupo_server]
$room/server

[wanekupo_station]
$room/station wanekupo_seat=a1 wanekupo_token_file=$room/a1.token

[wanekupo_server:vars]
wanekupo_deb=$deb
wanekupo_client_deb=$client_deb
wanekupo_site_file=$room/site.toml
wanekupo_name=localhost
wanekupo_file_bound=2G
wanekupo_health_addresses=["192.0.2.7/32", "192.0.2.8/32"]

[wanekupo_station:vars]
wanekupo_client_deb=$client_deb
wanekupo_url=https://localhost:8443
wanekupo_recipes=["$top/deploy/thermostat/thermostat.toml"]

[all:vars]
ansible_connection=community.general.chroot
ansible_python_interpreter=/usr/bin/python3
EOF2

step 'a server without a store is refused, unless it is said to be new'
! play --limit wanekupo_server || { echo 'role: a server without a store was taken' >&2; exit 1; }
grep -q 'There is no store yet' "$room/played"

step 'the first run, which sets no timer'
play -e wanekupo_makes_store=true || { cat "$room/played" >&2; exit 1; }
printf '  first: %s\n' "$(recap)"
timers='station-backup.timer wanekupo-metrics.timer station-restart.timer'
enabled() { systemctl --root="$room/$1" is-enabled "$2" 2> /dev/null || true; }
for timer in $timers; do same "$timer without settings" "$(enabled server "$timer")" disabled; done
same 'ship-journal.timer without settings' "$(enabled station ship-journal.timer)" disabled
same 'settings that nobody set' "$(cd "$room" && find server/etc/systemd/system station/etc/systemd/system -name ansible.conf)" ''

step 'all timers set, and a run more'
cat >> "$room/inventory" <<EOF2

[wanekupo_server:vars]
wanekupo_backup_snapshot=btrfs
wanekupo_backup_folder=/var/backups/plant
wanekupo_backup_recipients=["age1qqq", "/etc/station/backup.pub"]
wanekupo_backup_copy_with=/usr/local/sbin/take-away
wanekupo_backup_calendar="*-*-* 01:30"
wanekupo_metrics=true
wanekupo_shifts=["Mon-Fri 06:00-14:00"]
wanekupo_textfile_folder=/var/lib/prometheus/node-exporter
wanekupo_restart_calendar=["Mon..Fri 09:00", "Mon..Fri 18:30"]

[wanekupo_station:vars]
wanekupo_journals_to=journals@store.example:
EOF2
if play --limit wanekupo_server -e '{"wanekupo_restart_calendar": ["Moonday 9"]}'; then echo 'role: no calendar was taken' >&2; exit 1; fi
if play --limit wanekupo_server -e '{"wanekupo_backup_recipients": ["a\" \"B=c"]}'; then echo 'role: two words were one' >&2; exit 1; fi
grep -q "isn't one word" "$room/played"
play || { cat "$room/played" >&2; exit 1; }
printf '  with timers: %s\n' "$(recap)"
for timer in $timers; do same "$timer" "$(enabled server "$timer")" enabled; done
same 'ship-journal.timer' "$(enabled station ship-journal.timer)" enabled
for unit in station-backup.service station-backup.timer wanekupo-metrics.service station-restart.service station-restart.timer; do
    in_server systemd-analyze verify --man=no "/usr/lib/systemd/system/$unit" 2> "$room/said" || { cat "$room/said" >&2; exit 1; }
    same "what systemd says of $unit" "$(grep -F "$unit.d/" "$room/said" || true)" ''
done
own() { sed -n '/^# /!p' "$room/$1/etc/systemd/system/$2.d/ansible.conf"; }
same 'how backups are made' "$(own server station-backup.service)" '[Unit]
RequiresMountsFor=/var/backups/plant
[Service]
Environment="HOW=--snapshot btrfs --into /var/backups/plant --keep-days 7 --keep-weeks 5 --recipient age1qqq --recipient /etc/station/backup.pub --copy-with /usr/local/sbin/take-away"'
same 'what a boot removes' "$(cat "$room/server/etc/tmpfiles.d/wanekupo-backup.conf")" 'R! /var/backups/plant/.new-*'
same 'when backups are made' "$(own server station-backup.timer)" $'[Timer]\nOnCalendar=\nOnCalendar=*-*-* 01:30'
same 'the breaks' "$(own server station-restart.timer)" $'[Timer]\nOnCalendar=\nOnCalendar=Mon..Fri 09:00\nOnCalendar=Mon..Fri 18:30'
same 'where journals go' "$(own station ship-journal.service)" $'[Service]\nUser=bench\nEnvironment=TO=journals@store.example:\nReadWritePaths=/var/lib/bench/journals'
same 'the text files' "$(readlink "$room/server/var/lib/prometheus/node-exporter/wanekupo.prom")" /var/lib/wanekupo-metrics/wanekupo.prom
same 'the backups' "$(in_server stat -c '%U %G %a' /var/backups/plant)" 'station station 700'
play || { cat "$room/played" >&2; exit 1; }
printf '  second: %s\n' "$(recap)"
same 'what the second run changed' "$(grep -c '^changed:' "$room/played" || true)" 0
grep -q 'changed=[1-9]' <<< "$(recap)" && { cat "$room/played" >&2; exit 1; }

step 'what there is'
has() { same "$2 of $1" "$(chroot "$room/$1" stat -c '%U %G %a' "$2")" "$3"; }
has server /etc/station/site.toml 'root station 640'
has server /etc/station/key.pem 'root root 600'
has server /etc/station/tokens.conf 'root root 600'
has server /var/lib/station 'station station 700'
has server /var/lib/station/books.db 'station station 600'
has station /var/lib/bench/seat.token 'bench bench 600'
has station /var/lib/bench/journals 'bench bench 700'
same 'the site' "$(cat "$room/server/etc/station/site.toml")" "$(cat "$room/site.toml")"
for unit in station nginx nftables; do
    same "$unit" "$(in_server systemctl is-enabled $unit 2> /dev/null)" enabled
done
same 'who may ask for health' "$(grep -c '192.0.2.[78]/32 1;' "$room/server/etc/nginx/nginx.conf")" 2
in_server nft -c -f /etc/nftables.conf
! grep -q "$(cat "$room/a1.token")" "$room/played" || { echo 'role: a token was printed' >&2; exit 1; }

step 'a site that grew and a store that was lost stay as they are'
echo '# grown' >> "$room/server/etc/station/site.toml"
play --limit wanekupo_server -e wanekupo_makes_store=true || { cat "$room/played" >&2; exit 1; }
same 'the grown site' "$(tail -1 "$room/server/etc/station/site.toml")" '# grown'
mkdir "$room/lost"
mv "$room/server/var/lib/station/"* "$room/lost/"
! play --limit wanekupo_server -e wanekupo_makes_store=true || { echo 'role: a lost store was made anew' >&2; exit 1; }
grep -q 'Make no new one' "$room/played"
mv "$room/lost/"* "$room/server/var/lib/station/"

step 'a run that was killed, half a certificate, and a link of the bench'"'"'s user'
echo '# changed' >> "$room/server/etc/nginx/nginx.conf"
rm "$room/server/etc/station/cert.pem"
: > "$room/played"
(cd "$top/deploy/ansible" && exec setsid ansible-playbook -i "$room/inventory" plant.yml --limit wanekupo_server) > "$room/played" 2>&1 &
playing=$!
until grep -q 'TASK .*Have a folder for rules' "$room/played"; do kill -0 "$playing"; sleep 0.1; done
kill -KILL -- "-$playing"
wait "$playing" || true
same 'the certificate' "$(in_server openssl x509 -in /etc/station/cert.pem -noout -subject)" 'subject=CN = localhost'
play --limit wanekupo_server || { cat "$room/played" >&2; exit 1; }
same 'what was read behind the kill' "$(grep -c 'RUNNING HANDLER .*Test nginx' "$room/played")" 1
play --limit wanekupo_server || { cat "$room/played" >&2; exit 1; }
same 'what the next run changed' "$(grep -c '^changed:' "$room/played" || true)" 0
rmdir "$room/station/var/lib/bench/spool"
mkdir -m 755 "$room/station/root/others"
ln -s /root/others "$room/station/var/lib/bench/spool"
if play --limit wanekupo_station; then echo 'role: a link was followed' >&2; exit 1; fi
has station /root/others 'root root 755'
rm "$room/station/var/lib/bench/spool"
mv "$room/station/var/lib/bench/thermostat.toml" "$room/kept.toml"
ln -s /root/others "$room/station/var/lib/bench/thermostat.toml"
rm "$room/station/var/lib/bench/seat.token"
ln -s /root/others/token "$room/station/var/lib/bench/seat.token"
play --limit wanekupo_station || { cat "$room/played" >&2; exit 1; }
same 'what is in a folder of others' "$(ls "$room/station/root/others")" ''
has station /var/lib/bench/thermostat.toml 'bench bench 600'
has station /var/lib/bench/seat.token 'bench bench 600'
same 'the recipe' "$(cat "$room/station/var/lib/bench/thermostat.toml")" "$(cat "$room/kept.toml")"

step 'served with the ports of the pages, asked, and grown by station-site'
cat > "$room/server/usr/local/bin/systemctl" <<'EOF3'
#!/bin/bash
# In the place of systemd, which doesn't run here: the server, as its unit has it, and how often it was started again.
set -euo pipefail
is_up() { [ -s /tmp/pid ] && kill -0 "$(cat /tmp/pid)" 2> /dev/null; }
case "$*" in
    'start station')
        if is_up; then exit 0; fi
        cd /var/lib/station
        setpriv --reuid station --regid station --init-groups --inh-caps -all,+net_bind_service \
            --ambient-caps -all,+net_bind_service --bounding-set -all,+net_bind_service --no-new-privs \
            station serve --site /etc/station/site.toml --db books.db --existing --port 880 --connections 1000 \
            > /tmp/said 2>&1 < /dev/null &
        echo $! > /tmp/pid ;;
    'stop station')
        if ! is_up; then exit 0; fi
        kill "$(cat /tmp/pid)"
        while is_up; do sleep 0.05; done ;;
    'show -p NRestarts --value station') echo 0 ;;
    'is-active --quiet station') is_up ;;
    'show station --timestamp=unix --property='*) printf 'MainPID=%s\nNRestarts=0\nMemoryMax=infinity\n' "$(cat /tmp/pid)" ;;
    *) exit 1 ;;
esac
EOF3
chmod 755 "$room/server/usr/local/bin/systemctl"
cat > "$room/asked" <<'EOF3'
set -euo pipefail
room=$1
ip link set lo up
in_server() { LC_ALL=C chroot "$room/server" "$@"; }
in_station() { LC_ALL=C chroot "$room/station" runuser -u bench -- wanekupo "$@"; }
carried() { install -m 600 -o "$(stat -c %u "$room/station/var/lib/bench")" "$room/server/root/$1.token" "$room/station/var/lib/bench/seat.token"; }
trap 'in_server systemctl stop station; in_server nginx -s stop' EXIT
printf abc > "$room/server/tmp/known"
in_server station-token --no-reload seat a1 --known /tmp/known
in_server /usr/share/wanekupo/backup --program station --site /etc/station/site.toml \
    --db /var/lib/station/books.db /var/backups/plant/night
in_server systemctl start station
in_server nginx
in_server station-token add a1 --to /root/a1.token
carried a1
cp "$room/server/etc/station/cert.pem" "$room/station/etc/wanekupo/ca.pem"
echo 'ca = "/etc/wanekupo/ca.pem"' >> "$room/station/etc/wanekupo/client.toml"
in_station make-order o1 acme-ca A --width 3 --first 1 --quantity 2 --yes
in_server station-site --backups /var/backups/plant add-seat acme a5 --holder 'line 5' --to /root
in_server station-site --backups /var/backups/plant add-customer core --issuer core-ca --pool 020000010000 65536 --seat c1 --to /root --apply
carried a5
in_station order o1
in_server station-token list
in_server stat -c '%U %G %a' /etc/station/site.toml /root/a5.token
in_server station-token add a1 --look --to /etc/station/metrics/acme.token
in_server chgrp station /etc/station/metrics/acme.token
chmod 640 "$room/server/etc/station/metrics/acme.token"
words() { sed -e ':a' -e '/\\$/N; s/\\\n *//; ta' "$room/server/etc/systemd/system/$1.service.d/ansible.conf" | sed -n 's/^ExecStart=\(.\+\)/\1/p'; }
in_server install -d -o station -g station -m 755 /var/lib/wanekupo-metrics
in_server sh -c "umask 077; exec runuser -u station -- $(words wanekupo-metrics)"
in_server cat /var/lib/prometheus/node-exporter/wanekupo.prom
in_server sh -c "$(words station-restart) --check"
EOF3
unshare -n bash "$room/asked" "$room" > "$room/told" 2>&1 || { cat "$room/told" >&2; exit 1; }
said() { grep -q -- "$1" "$room/told" || { cat "$room/told" >&2; printf 'role: nobody said: %s\n' "$1" >&2; exit 1; }; }
same 'an order, made and shown by a new seat' "$(grep -c '"name":"o1"' "$room/told")" 2
said 'core is a new customer with 1 issuer (core-ca), 1 seat (c1) and 65,536 addresses'
said 'a copy of the backup night took it'
said 'the seat a5 of acme is known, and nginx takes the token in /root/a5.token'
said 'the seat c1 of core is known, and nginx takes the token in /root/c1.token'
said '^root station 640$'
said '^root root 600$'
said 'wanekupo_orders{customer="acme"} 1'
said 'wanekupo_connections_left '
said 'restart: nothing asks for it; it would be away for .* s, by a start of the copy in /var/backups/plant/'
echo 'the roles do what their page says, and twice the same'
