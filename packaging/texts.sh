# Part of ./package: headers, files for pkg-config and CMake, wrappers, examples, documents, and where it all comes
# from. What is taken from the repository has the same name in the package, so that pages lead to each other in both.

# Files of packaging/ with the version's numbers in them: NAME INTO.
fill() {
    mkdir -p "$folder/$2"
    sed -e "s/@VERSION@/$version/g" -e "s/@MAJOR@/$major/g" "packaging/$1" >"$folder/$2/$1"
}

# Files of the repository, named one by one or by their endings, so that nothing built is passed on.
put() {
    for file in "$@"; do
        install -D -m 644 "$file" "$folder/$file"
    done
}

# Pages of the repository, where commands build a program first; in a package they are built.
put_pages() {
    for page in "$@"; do
        mkdir -p "$folder/${page%/*}"
        sed -e 's|cargo run --release --manifest-path tools/Cargo.toml --target-dir target/tools --|bin/prep-tools|g' \
            -e 's|crates/[a-z_]*/out/|bin/|g' "$page" >"$folder/$page"
    done
}

fill README.md .
fill prep.pc lib/pkgconfig
fill prepConfig.cmake lib/cmake/prep
fill prepConfigVersion.cmake lib/cmake/prep
put include/prep.h include/prep_refusals.def CHANGELOG.md LICENCE.md
put examples/c/*.c examples/c/CMakeLists.txt
put examples/rust/Cargo.toml examples/rust/Cargo.lock examples/rust/*.rs examples/rust/rustfmt.toml
put examples/rust/src/*.rs examples/rust/examples/*.rs
put examples/python/*.py examples/python/pyproject.toml examples/python/prep/*.py examples/python/prep/py.typed
put examples/prep/*.txt examples/prep/*.bin examples/prep/*.sheet examples/prep/*.svg
put examples/prep/*.judged examples/prep/*.stored
put_pages examples/prep/README.md tools/TEXT-FORM.md
for page in docs/*.md; do
    case $page in
    # These are about the repository.
    docs/CHANGES.md | docs/CONTRACTS.md | docs/DECISIONS.md) ;;
    docs/DESIGN-PASS.md | docs/LOOK-BACK.md | docs/PORT.md) ;;
    *) put_pages "$page" ;;
    esac
done

{
    printf '%s\n' "$source"
    printf 'kit %s\n' "$kit"
    printf 'compiler of words.c %s\n' "$($cc --version | head -n 1)"
    printf 'compiler of prep-tools %s\n' "$(readelf -p .comment "$tools" | sed -n 's/.*\(rustc version .*\)/\1/p')"
} >"$folder/SOURCE"
