# Builds the Rust reference and programs over it, for compare/run and benchmark/run to source. Before
# that, `root` is the repository and `built` the folder that all is built into; MOLANGX_SRC is the
# folder of the Rust sources.
# shellcheck shell=bash disable=SC2034,SC2154

compare=$root/compare
given=${MOLANGX_SRC:-$root/../shared/docs/src}
archive=$root/target/staticlib/libnimbohaza.a
edition=2024

# What the programs are built from, and what the reference and the programs over it are.
ours=("$compare" "$root/rust/src/abi.rs")
sources=("${ours[@]}" "$given")

# What a program over the library is compiled with, and one over the reference.
linked=(--cfg library -L native="${archive%/*}" -l static=nimbohaza)
over_reference=(--cfg reference --extern molang)

# The exit status of a script that could do nothing here: it did not fail, and it did not pass.
not_run=77

# Prints the comment at the head of the script, and ends it.
end_with_use() {
    sed -n '2,/^set/{s/^# \{0,1\}//p}' "$0" >&2
    exit 2
}

# Whether the folder has every file of the reference.
have_sources() {
    local file
    while read -r _ file; do
        [[ -f $given/$file ]] || return 1
    done <"$compare/sources.sha256"
}

# need_sources NAME WORDS: ends the script where the Rust sources are not at hand. Where CI is set it then fails.
need_sources() {
    ! have_sources || return 0
    echo "$1: the Rust sources are not at hand (MOLANGX_SRC; see README); $2" >&2
    [[ -z ${CI:-} ]] || exit 1
    exit "$not_run"
}

build_archive() { "$root/tools/staticlib" >/dev/null; }

# install_package NAME: from Debian.
install_package() {
    local get=(apt-get install -qq -y --no-install-recommends "$1")
    "${get[@]}" >/dev/null 2>&1 || { apt-get update -qq && "${get[@]}" >/dev/null; }
}

need_rustc() { command -v rustc >/dev/null || install_package rustc; }

# The source of the smallvec crate, from Debian's package.
smallvec_source() { dpkg -L librust-smallvec-dev 2>/dev/null | grep '/src/lib.rs$'; }

# The given files under their own paths, checked to be those of the commit, and ours around them.
lay_out_reference() {
    rm -rf "$built/molang"
    mkdir -p "$built/molang/src"
    cp -r "$compare/standins/." "$built/molang/src/"
    while read -r _ file; do
        install -D -m 644 "$given/$file" "$built/molang/$file"
    done <"$compare/sources.sha256"
    (cd "$built/molang" && sha256sum --quiet -c "$compare/sources.sha256")
}

# rlib NAME FILE [WORDS...]: compiles one crate into the build folder.
rlib() { rustc -O --crate-name "$1" --crate-type rlib --out-dir "$built" -L "$built" "${@:3}" "$2"; }

# The calls that both sides are handed.
build_calls() { rlib calls "$compare/calls.rs" --edition 2021; }

# The crates of the reference, from what is laid out.
build_reference() {
    local src=$built/molang/src
    smallvec_source >/dev/null || install_package librust-smallvec-dev
    rlib smallvec "$(smallvec_source)" --edition 2018 --cap-lints allow
    rlib bitflags "$src/bitflags.rs" --edition "$edition"
    rlib nohash_hasher "$src/nohash_hasher.rs" --edition "$edition"
    rustc --crate-name thiserror --crate-type proc-macro --out-dir "$built" --edition "$edition" \
        --extern proc_macro "$src/thiserror.rs"
    build_calls
    rlib molang "$src/lib.rs" --edition "$edition" \
        --cfg 'feature="stdlib"' --cfg 'feature="vm"' --cfg 'feature="platform-quirks"' \
        --check-cfg 'cfg(feature, values("stdlib", "vm", "platform-quirks", "fuzz"))' \
        --extern smallvec --extern bitflags --extern nohash_hasher --extern calls \
        --extern thiserror="$built/libthiserror.so"
}

# program NAME FILE [WORDS...]: links a program with the calls, and with what the words say.
program() {
    rustc -O --edition "$edition" --crate-name "$1" --out-dir "$built" -L "$built" \
        --check-cfg 'cfg(library, reference, slips)' --extern calls "${@:3}" "$2"
}

# One line for all that files and folders hold, and for the compiler.
sum_of() {
    { rustc --version && find "$@" -type f -print0 | sort -z | xargs -0 cat; } | sha256sum
}

# once NAME SUM COMMAND...: builds a program by a command, unless it was built from the same sum.
once() {
    local kept=$built/$1.inputs
    [[ ! -x $built/$1 || $2 != "$(cat "$kept" 2>/dev/null)" ]] || return 0
    mkdir -p "$built"
    "${@:3}"
    echo "$2" >"$kept"
}
