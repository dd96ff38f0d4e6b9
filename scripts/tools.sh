# Sourced by the scripts that need more than the kit: finding what is there, and installing what is missing by Debian's packages.
# The script that sources it has `missing`, which prints the packages that it lacks, and `cannot`, which ends it with a reason.
target=x86_64-unknown-linux-gnu

# A compiler that has the standard library for x86-64, Debian's among those that are tried.
find_rustc() {
    local command lib
    for command in ${RUSTC:-rustc /usr/bin/rustc}; do
        lib=$("$command" --print target-libdir --target $target 2>/dev/null) || continue
        compgen -G "$lib/libstd-*.rlib" >/dev/null && echo "$command" && return
    done
    return 1
}

find_percent() {
    local files
    files=$(dpkg -L librust-percent-encoding-dev 2>/dev/null) || return 1
    grep '/percent-encoding-2[^/]*/src/lib\.rs$' <<<"$files"
}

# install_missing NAME LOG: NAME tells who asks.
install_missing() {
    local packages as_root=() done=yes apt=(apt-get -o Acquire::Retries=1 -o Acquire::http::Timeout=30)
    # Debian's postgresql makes and starts a server of its own, unless this says no
    local no_server=/etc/postgresql-common/createcluster.d/nyimbrak.conf
    packages=$(missing | tr '\n' ' ')
    [ -n "$packages" ] || return 0
    command -v apt-get >/dev/null || cannot "missing: ${packages% }, and there is no apt-get"
    if [ "$(id -u)" != 0 ]; then
        sudo -n true 2>/dev/null || cannot "missing, and only root can install: ${packages% }"
        as_root=(sudo -n)
    fi
    echo "$1: installing ${packages% }"
    mkdir -p build
    exec 7>build/install.lock
    flock 7
    {
        [[ $packages != *:amd64* ]] || "${as_root[@]}" dpkg --add-architecture amd64
        "${as_root[@]}" "${apt[@]}" update -qq
        if [[ $packages == *postgresql* ]]; then
            "${as_root[@]}" mkdir -p "${no_server%/*}"
            echo 'create_main_cluster = false' | "${as_root[@]}" tee "$no_server"
        fi
        # shellcheck disable=SC2086
        "${as_root[@]}" env DEBIAN_FRONTEND=noninteractive "${apt[@]}" install -y -qq --no-install-recommends $packages
    } </dev/null >"$2" 2>&1 || done=
    exec 7>&-
    "${as_root[@]}" rm -f "$no_server"
    [ -n "$done" ] || cannot "apt-get could not install ${packages% }"
    [ -z "$(missing)" ] || cannot "still missing after apt-get: $(missing | tr '\n' ' ')"
}
