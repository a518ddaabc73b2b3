# What the parts of ./check-tools share. They run in the repository's root, one after the other, in one shell.

out=target/checks/out
cargo_folder=target/checks/cargo
export LC_ALL=C CARGO_NET_OFFLINE=true PYTHONDONTWRITEBYTECODE=1
unset PREP_LIB_DIR PKG_CONFIG_PATH CARGO_TARGET_DIR RUSTFLAGS
cc=${CC:-cc}
cxx=${CXX:-c++}

say() { printf 'check-tools: %s\n' "$*"; }

fail() {
    printf 'check-tools: FAILED: %s\n' "$*" >&2
    exit 1
}

# Runs a command; what it prints is shown only if it fails.
quietly() {
    if ! "$@" >"$out/printed" 2>&1; then
        cat "$out/printed" >&2
        fail "$*"
    fi
}

# Runs a command that must end with this status and tell these words, if there are any: STATUS WORDS COMMAND...
ends() {
    wanted=$1 words=$2 status=0
    shift 2
    "$@" >"$out/printed" 2>&1 || status=$?
    echo >>"$out/printed"
    if [ "$status" -ne "$wanted" ] || ! grep -q -e "$words" "$out/printed"; then
        cat "$out/printed" >&2
        fail "$* ended with $status; wanted are $wanted and the words: $words"
    fi
}

# The two files must be the same.
same() { cmp -s "$1" "$2" || { diff "$1" "$2" | head -n 20 >&2; fail "$3"; }; }

# Runs a program that must print the worked sheet for both booking lists.
prints_sheet() {
    "$@" >"$out/sheet" || fail "$*"
    same tools/checks/sheet.txt "$out/sheet" "$* printed another sheet"
}

# Proves and builds a program, which then is crates/NAME/out/NAME; rt runs it, with nothing to read: NAME
build_program() { (cd "crates/$1" && rt run </dev/null); }

# Runs a stream of cases through a host and compares its text: HOST STREAM TEXT. What the host tells on standard error,
# most often how many cases there were, stays in $out/number.
through() {
    host=$1
    eval "$host" <"$2" >"$out/text" 2>"$out/number" || { tail -n 5 "$out/number" >&2; fail "$host on $2"; }
    same "$3" "$out/text" "$host differs on $2"
}

# The flags for a compiler that tells this version. Warnings fail by the lints of the one that this was written with;
# those of a later one are news, and no fault.
flags_for() { case $1 in 'rustc 1.95.'*) echo '-D warnings' ;; esac }

# Which programs are missing, all at once.
check_programs() {
    missing=
    for program in rt "$cc" "$cxx" ar nm readelf strip cargo rustc rustfmt python3 pkg-config cmake; do
        command -v "${program%% *}" >/dev/null || missing="$missing $program"
    done
    if [ -e .git ]; then command -v git >/dev/null || missing="$missing git"; fi
    [ -z "$missing" ] || fail "these programs are missing:$missing"
    python3 -m pip --version >/dev/null 2>&1 || fail 'python3 has no pip'
    RUSTFLAGS=$(flags_for "$(rustc --version)")
    export RUSTFLAGS
}
