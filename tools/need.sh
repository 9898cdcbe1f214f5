# To be sourced.
# need COMMAND PACKAGE...: installs Debian's packages if there is no such command.
need() {
    command -v "$1" >/dev/null || install_packages "${@:2}"
}

# need_packages PACKAGE...: installs Debian's packages if one of them is not there.
need_packages() {
    dpkg -s "$@" >/dev/null 2>&1 || install_packages "$@"
}

install_packages() {
    local as_root=()
    [ "$(id -u)" = 0 ] || as_root=(sudo)
    echo "installing: $*" >&2
    "${as_root[@]}" apt-get update -q >/dev/null
    "${as_root[@]}" env DEBIAN_FRONTEND=noninteractive apt-get install -y -q --no-install-recommends "$@" >/dev/null
}
