# Part of ./package: looks for all that is needed, before anything is written, and builds what is packaged.

cc=${CC:-cc}
needed="rt ${cc%% *} ar nm readelf strip sha256sum"
if [ $build = yes ]; then needed="$needed cargo"; fi
if [ -e .git ]; then needed="$needed git"; fi
missing=
for program in $needed; do
    command -v "$program" >/dev/null || missing="$missing $program"
done
[ -z "$missing" ] || fail "these programs are missing:$missing"

# A number of the version, as the header has it.
number() { sed -n "s/^#define PREP_VERSION_$1 \([0-9]*\)\$/\1/p" include/prep.h; }

major=$(number MAJOR)
version=$major.$(number MINOR).$(number PATCH)
name=prep-$version-x86_64-linux
kit=$(rt version)
[ -n "$kit" ] || fail 'rt version tells no kit'

# Where rt leaves programs that it built: NAME...
built() { printf '%s\n' "$@" | sed 's|.*|crates/&/out/&|'; }

# Proves and builds the library and the programs. rt runs what it builds; the programs are given nothing to read.
build_all() {
    (cd crates/capi_c && rt lib >&2)
    install -D -m 644 crates/capi_c/out/libcapi_c.a "$proved"
    # $programs is a list of words.
    for program in $programs; do
        (cd "crates/$program" && rt run </dev/null >/dev/null)
    done
    cargo build --quiet --release --manifest-path tools/Cargo.toml --target-dir target/tools
}

# What is not built, all at once.
check_built() {
    missing=
    # $programs is a list of words.
    for file in "$proved" "$tools" $(built $programs); do
        [ -f "$file" ] || missing="$missing $file"
    done
    [ -z "$missing" ] || fail "these are not built; without --as-built they would be:$missing"
}
