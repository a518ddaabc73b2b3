# Part of ./check-tools: ./package and ./check-tools read their arguments and look for what they need first, and a
# package that is not whole does not stand anywhere.

# The PATH without the folders that have a program.
path_without() {
    (
        IFS=:
        for folder in $PATH; do
            [ -x "$folder/$1" ] || printf '%s:' "$folder"
        done
    )
}

nowhere=$out/nowhere
ends 0 '^usage: ./package' ./package --help
ends 2 '^usage: ./package' ./package --as-build "$nowhere"
ends 2 '^usage: ./package' ./package "$nowhere" "$nowhere"
ends 0 '^usage: ./check-tools' ./check-tools --help
ends 2 '^usage: ./check-tools' ./check-tools --as-built
ends 2 '^usage: ./check-tools' ./check-tools 1 many
ends 2 '^usage: ./check-tools' ./check-tools 1 2 3

few=$(path_without rt)
ends 1 'missing: rt' env PATH="$few" ./package --as-built "$nowhere"
[ ! -e "$nowhere" ] || fail './package wrote something before it looked for what it needs'
few=$(path_without rustfmt)
if PATH=$few command -v rustfmt >/dev/null; then fail 'rustfmt cannot be hidden'; fi
ends 1 'missing:.* rustfmt' env PATH="$few" ./check-tools
[ -z "$(flags_for 'rustc 1.96.0 (of a later day)')" ] || fail "a later compiler's lints would fail the checks"
say 'arguments: wrong ones end with 2 and a usage line; missing programs are told before anything is written'
