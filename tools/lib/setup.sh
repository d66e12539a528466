# Read by commands that are written in bash. `needs NEED..` goes on only if Python and what is named is there, as
# setup.py says. Python itself is installed on the same conditions: OPCMDS_INSTALL=1, root, Debian.
needs() {
    local here install="apt-get install -y python3" sudo="sudo "
    [ "$UID" != 0 ] || sudo=
    if ! command -v python3 > /dev/null && [ "$OPCMDS_INSTALL$sudo" = 1 ] && command -v apt-get > /dev/null; then
        echo "setup: not found: python3; installing by: $install" >&2
        { apt-get update && DEBIAN_FRONTEND=noninteractive $install; } < /dev/null > /dev/null 2>&1
    fi
    if ! command -v python3 > /dev/null; then
        echo "setup: not found: python3. On Debian: $sudo$install (with OPCMDS_INSTALL=1, the tools install by" \
            "themselves as root)" >&2
        exit 3
    fi
    here=${BASH_SOURCE[0]%/*}
    [ $# = 0 ] || python3 "$here/setup.py" "$@" < /dev/null || exit 3
}
