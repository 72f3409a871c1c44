# need PROGRAM PACKAGE WHAT: is there a program of this name? If not it is installed, where that can be done: by root, from Debian's
# packages. If it is still not there, what is not tried is said.
need() {
    command -v "$1" >/dev/null && return
    if [ "$(id -u)" -eq 0 ] && command -v apt-get >/dev/null; then
        echo "installing $2"
        { apt-get install -y "$2" || { apt-get update && apt-get install -y "$2"; }; } </dev/null >/dev/null 2>&1
        hash -r
    fi
    command -v "$1" >/dev/null || { echo "skipped: no $1 here: $3"; return 1; }
}
