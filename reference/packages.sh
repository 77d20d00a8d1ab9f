# shellcheck shell=sh
# Debian's packages, for the scripts that need some. The script that reads this has a function `say`.

# shellcheck disable=SC2034 # for the scripts that read this
tool_packages='librust-clap-dev librust-indicatif-dev librust-png-dev librust-rayon-dev librust-serde-dev
    librust-serde-json-dev librust-signal-hook-dev librust-tempfile-dev'
# shellcheck disable=SC2034
reference_packages=librust-bit-vec-dev

# install PACKAGE..: installs those Debian packages that are missing. Standard output stays untouched: it may be a sheet.
install() {
    missing=
    for package in "$@"; do
        status=$(dpkg-query --show --showformat='${db:Status-Status}' "$package" 2>/dev/null) || status=
        [ "$status" = installed ] || missing="$missing $package"
    done
    [ -n "$missing" ] || return 0
    say "installing$missing"
    as_root=
    [ "$(id -u)" = 0 ] || as_root=sudo
    # A source that can't be reached, of others that can, need not matter.
    $as_root apt-get update -qq >&2 || say "not every list of packages could be renewed"
    # shellcheck disable=SC2086 # the names are words of their own
    $as_root env DEBIAN_FRONTEND=noninteractive apt-get install -qq -y --no-install-recommends $missing >/dev/null
}

# install_program NAME PACKAGE..: installs the packages where there is no program of that name.
install_program() {
    command -v "$1" >/dev/null && return 0
    shift
    install "$@"
}

# cargo, and the compiler that it links with. Debian 12's own cargo is too old; cargo-web is its newer one.
install_cargo() {
    install_program cargo cargo-web && install_program cc gcc libc6-dev
}
