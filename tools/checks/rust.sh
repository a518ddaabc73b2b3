# Part of ./check-tools: the Rust wrapper as a package's user builds it, and the benchmark over it.

wrapper="--quiet --manifest-path $package/examples/rust/Cargo.toml --target-dir $cargo_folder"
# $wrapper is a list of words.
quietly cargo test $wrapper
tests=$(awk '/^test result: ok/ { n += $4 } END { print n }' "$out/printed")
prints_sheet cargo run $wrapper --example sheet
prints_sheet cargo run $wrapper --example parts
say "rust: the wrapper's $tests tests and two examples, over the library of the package in which it stands"

# Outside of a package it has to be told where the library is, and that has to be of its version. What cargo built for
# the package would do here too, so it builds elsewhere.
outside="--quiet --manifest-path examples/rust/Cargo.toml --target-dir $cargo_folder-outside"
ends 101 'PREP_LIB_DIR is not set' cargo build $outside
cp -R "$package" "$out/old-package"
sed -i 's/^#define PREP_VERSION_MAJOR .*/#define PREP_VERSION_MAJOR 4/' "$out/old-package/include/prep.h"
ends 101 'is 4\.[0-9]*, and this wrapper is for' env PREP_LIB_DIR="$PWD/$out/old-package/lib" cargo build $outside
rm "$out/old-package/include/prep.h"
ends 101 'prep.h tells what libprep.a is' env PREP_LIB_DIR="$PWD/$out/old-package/lib" cargo build $outside
export PREP_LIB_DIR="$package/lib"
quietly cargo build $outside
say 'rust: elsewhere its build says that it wants PREP_LIB_DIR, and refuses a library of another version or of none'

# What is newer than the compiler that Cargo.toml names; clippy knows that, and need not be there.
if cargo clippy --version >/dev/null 2>&1; then
    for folder in examples/rust tools; do
        quietly cargo clippy --quiet --manifest-path "$folder/Cargo.toml" --target-dir "$cargo_folder-outside" \
            --all-targets -- -A clippy::all -D clippy::incompatible_msrv
        oldest=$(sed -n 's/^rust-version = "\(.*\)"/\1/p' "$folder/Cargo.toml")
        say "rust: $folder uses nothing that Rust $oldest lacks, as far as clippy knows"
    done
fi

quietly cargo check --quiet --manifest-path tools/bench/Cargo.toml --target-dir "$cargo_folder"
say "rust: the benchmark compiles over the wrapper"
unset PREP_LIB_DIR
