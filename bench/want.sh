# To be read by scripts of bash: what they need of Debian's packages.

# want PACKAGE COMMAND..: a command that works where the package is there. It is installed where it is missing and we may, at the third try at the
# latest; else that is said, and the script ends with status 1, so that nothing is passed over.
want() {
    local package=$1 try log
    shift
    "$@" > /dev/null 2>&1 && return
    log=$(mktemp)
    for try in 1 2 3; do
        [ "$(id -u)" -eq 0 ] || break
        apt-get install -y -q "$package" > "$log" 2>&1 || apt-get update -q >> "$log" 2>&1 || sleep $((5 * try))
        "$@" > /dev/null 2>&1 && rm -f "$log" && return
    done
    tail -n 3 "$log" >&2
    rm -f "$log"
    echo "$0 wants Debian's package $package ($* failed)" >&2
    exit 1
}
