# What root does by hand in the store's own name: `. /usr/share/wanekupo/by-hand.sh`, in a bash of root's.
#
#   as_station COMMAND ..     runs it as the user `station`, with none of root's words, keys, folder and terminal, shows
#                             what it says without signs that a terminal obeys, and has its status
#   locked STORE COMMAND ..   runs it under the lock that a server holds; where one has STORE nothing is run
as_station() (
    set -o pipefail
    env -i -C / PATH=/usr/local/bin:/usr/bin:/usr/sbin setsid -w \
        runuser -l -s /bin/sh -c 'exec "$@"' -- station sh "$@" < /dev/null |& cat -v
)

locked() {
    python3 -Ic 'import fcntl, subprocess, sys
with open(sys.argv[1], "r+b") as store:
    try:
        fcntl.lockf(store, fcntl.LOCK_EX | fcntl.LOCK_NB)
    except BlockingIOError:
        sys.exit("a server has " + sys.argv[1])
    sys.exit(subprocess.run(sys.argv[2:]).returncode)' "$@"
}
