# Sourced by the scripts of this repository: installs what a command needs from Debian's packages, where it isn't there yet.

# need COMMAND PACKAGE..
need() {
    local command=$1
    shift
    command -v "$command" >/dev/null 2>&1 && return
    echo "installing $* for $command"
    [ -n "${packages_listed:-}" ] || DEBIAN_FRONTEND=noninteractive apt-get update -qq
    packages_listed=yes
    DEBIAN_FRONTEND=noninteractive apt-get install -y -qq "$@" >/dev/null
    command -v "$command" >/dev/null 2>&1
}
