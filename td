#!/usr/bin/env bash
# Runs td with the words and the standard input given. Where it is out of date it is built first:
# crates that don't need each other side by side, and each is told on standard error as it begins.
set -u
top=$(cd "$(dirname "$(readlink -f "${BASH_SOURCE[0]}")")" && pwd)
binary=$top/crates/td/out/td

crates=()          # the crates, in the order of crates.txt
declare -A needs   # what a crate uses, those of the kit among them
declare -A stage   # of each crate: waiting, building or built
declare -A built_by # the crate that a process builds

read_crates() {
    local line name
    while IFS= read -r line; do
        [[ $line =~ ^([a-z0-9_]+)[^:]*:(.*)$ ]] || continue
        name=${BASH_REMATCH[1]}
        crates+=("$name")
        needs[$name]=${BASH_REMATCH[2]}
        stage[$name]=waiting
    done <crates.txt
}

# Leaves out the crates that td does not stand on. In crates.txt each crate stands behind those
# that it needs.
keep_needed() {
    local place name need kept=()
    declare -A wanted=([td]=yes)
    for ((place = ${#crates[@]} - 1; place >= 0; place--)); do
        name=${crates[place]}
        [ -n "${wanted[$name]:-}" ] || continue
        kept=("$name" ${kept[@]+"${kept[@]}"})
        for need in ${needs[$name]}; do
            wanted[$need]=yes
        done
    done
    crates=("${kept[@]}")
}

# Whether a crate waits for no other any more.
is_ready() {
    local need
    [ "${stage[$1]}" = waiting ] || return 1
    for need in ${needs[$1]}; do
        [ "${stage[$need]:-built}" = built ] || return 1
    done
}

# Makes a place where a crate is built by itself, since rt keeps all crates below it from others
# while it works: the crate with what is kept of it, and the libraries below it.
lay_out() {
    local crate place=$places/$1
    mkdir -p "$place/crates"
    cp HANDLES "$place"
    for crate in "${crates[@]}"; do
        echo "$crate:${needs[$crate]}"
    done >"$place/crates.txt"
    for crate in "${crates[@]}"; do
        mkdir -p "$place/crates/$crate"
        find "crates/$crate" -mindepth 1 -maxdepth 1 ! -name out \
            -exec cp -a -t "$place/crates/$crate" {} +
        if [ "${stage[$crate]}" = built ]; then
            mkdir -p "$place/crates/$crate/out"
            cp -al "crates/$crate/out/rlib" "$place/crates/$crate/out" 2>/dev/null ||
                cp -a "crates/$crate/out/rlib" "$place/crates/$crate/out"
        fi
    done
    [ ! -e "crates/$1/out" ] || mv "crates/$1/out" "$place/crates/$1"
}

# Takes what was built, or kept, out of a crate's place.
take_back() {
    local out=$places/$1/crates/$1/out
    [ ! -e "$out" ] || mv "$out" "crates/$1"
    rm -rf "${places:?}/$1"
}

# Builds td itself by a run of it, and every other crate as a library.
start() {
    local name=$1 words=(lib --jobs "$(nproc)")
    [ "$name" = td ] && words=(run --jobs "$(nproc)" -- run)
    lay_out "$name"
    (cd "$places/$name/crates/$name" && exec rt "${words[@]}") \
        </dev/null >"$places/$name.log" 2>&1 &
    built_by[$!]=$name
    stage[$name]=building
    begun=$((begun + 1))
    echo "td: crate $begun of ${#crates[@]}, $name, is proved and built" \
        "($((SECONDS / 60)) min so far)" >&2
}

build() {
    local name ended begun=0 left=${#crates[@]}
    while [ "$left" -gt 0 ]; do
        for name in "${crates[@]}"; do
            is_ready "$name" && start "$name"
        done
        if ! wait -n -p ended; then
            cat "$places/${built_by[$ended]}.log" >&2
            return 1
        fi
        take_back "${built_by[$ended]}"
        stage[${built_by[$ended]}]=built
        left=$((left - 1))
    done
}

# Ends what still builds, and keeps what it has done so far.
leave() {
    local name
    kill $(jobs -p) 2>/dev/null
    wait
    for name in "${crates[@]}"; do
        [ "${stage[$name]}" = building ] && take_back "$name"
    done
    rm -rf "$places"
}

build_all() {
    cd "$top" || return 1
    places=$(mktemp -d) || return 1
    trap leave EXIT
    trap 'exit 1' INT TERM
    read_crates
    keep_needed
    echo "td: each crate is proved before it is built; ./try answers now, without the proofs" >&2
    build
}

if ! "$top/tools/is-built"; then
    if ! (build_all); then
        echo "td: cannot be built" >&2
        exit 3
    fi
    touch "$binary.built"
fi
exec "$binary" "$@"
