# Part of ./check-tools: the built printer against the other implementation, and with input that comes in small pieces.

quietly build_program sheet_printer
printer=crates/sheet_printer/out/sheet_printer

quietly "$tools" compare "$printer" "$seed" "$count"
say "printer: $(tail -n 1 "$out/printed") (seed $seed) from the other implementation"

quietly "$tools" longest 1023 32
cp "$out/printed" "$out/longest"
quietly python3 tools/checks/pieces.py "$printer" examples/prep/*.bin "$out/longest"
say "printer: $(cat "$out/printed")"

# The examples of the pages, here and by the printer.
for page in docs/FORMAT.md docs/HOW-TO-SAY.md; do
    quietly "$tools" page "$page" --printer "$printer"
    say "page: $page: $(tail -n 1 "$out/printed")"
done
