# Part of ./check-tools: the programs of the package, where they stand: the proved ones on their stored input, and the
# tools on the package's own pages and examples.

for program in $(cd "$package/bin" && ls); do
    [ "$program" != prep-tools ] || continue
    through "$package/bin/$program" "crates/$program/stdin" "crates/$program/stdout"
    say "programs: $program writes what is stored"
done

# The commands that the package's README shows.
sed -n '/^## Programs/,/^## C/s|^    ||p' "$package/README.md" | sed "s|> list|> $out/list|" >"$out/commands"
quietly env PREP="$package" sh -e "$out/commands"
say "programs: $(wc -l <"$out/commands") commands of the package's README"

quietly "$package/bin/sheet_printer" <"$package/examples/prep/programme.bin"
same "$package/examples/prep/programme.sheet" "$out/printed" 'the printer prints another example'
(cd "$package" && bin/prep-tools page docs/FORMAT.md --printer bin/sheet_printer) >"$out/printed" 2>&1 || {
    cat "$out/printed" >&2
    fail 'the page of formats, in the package'
}
say "programs: prep-tools and the printer on the package's FORMAT.md: $(tail -n 1 "$out/printed")"
