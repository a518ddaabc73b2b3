# Part of ./check-tools: the tools' own tests and layout. Sets `tools`, the built program.

for folder in tools tools/bench examples/rust; do
    quietly cargo fmt --check --manifest-path "$folder/Cargo.toml"
done
quietly cargo test --quiet --manifest-path tools/Cargo.toml --target-dir "$cargo_folder"
say "tools: $(awk '/^test result: ok/ { n += $4 } END { print n }' "$out/printed") tests pass, the layout is rustfmt's"

quietly cargo build --quiet --manifest-path tools/Cargo.toml --target-dir "$cargo_folder"
tools=$cargo_folder/debug/prep-tools
