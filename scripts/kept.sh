# Sourced by the scripts that need something rt builds: programs and archives, kept in build/ for as long as no crate and no kit changes.
mkdir -p build

crates_sum() {
    {
        rt version
        cat crates.txt
        find crates -type d -name out -prune -o -type f \( -name '*.rt' -o -name '*.antt' \) -print0 | LC_ALL=C sort -z | xargs -0 sha256sum
    } | sha256sum
}

is_kept() { # NAME
    [ -e "build/$1" ] && [ "$(crates_sum)" = "$(cat "build/$1.sum" 2>/dev/null)" ]
}

keep() { # NAME FILE
    cp "$2" "build/$1"
    crates_sum >"build/$1.sum"
}

# Runs a command in a crate's folder, and says what it said where it fails.
quietly() { # CRATE COMMAND..
    local log=$PWD/build/$1.log folder=crates/$1
    shift
    (cd "$folder" && "$@") </dev/null >"$log" 2>&1 || { tail -n 20 "$log" >&2 && return 1; }
}

# programs NAME..   build/NAME is the proved program of crate NAME
programs() {
    local name
    for name; do
        is_kept "$name" && continue
        quietly "$name" rt run || exit 1
        keep "$name" "crates/$name/out/$name"
    done
}

# archives NAME=CRATE..   build/NAME is the proved archive of CRATE
archives() {
    local pair crate
    for pair; do
        is_kept "${pair%=*}" && continue
        crate=${pair#*=}
        quietly "$crate" rt lib || exit 1
        keep "${pair%=*}" "crates/$crate/out/lib$crate.a"
    done
}
