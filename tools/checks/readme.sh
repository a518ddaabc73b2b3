# Part of ./check-tools: README names the kit that is there, and each of its commands does its work, but for the two
# that test everything.

grep -qF "\`$(rt version)\`" README.md || fail 'README wants another kit'

# A line that ends with a backslash goes on in the next.
sed -n 's/^    //p' README.md | sed -e ':more' -e '/\\$/{' -e 'N' -e 's/\\\n *//' -e 'b more' -e '}' >"$out/commands"
pasted=0
while read -r command; do
    wanted=0
    case $command in
    .ci/run | 'cargo test '*) continue ;;
    # What the draft books can't be met.
    *' check '*draft.txt) wanted=1 ;;
    esac
    ends $wanted '' env -u RUSTFLAGS sh -c "$command" </dev/null
    pasted=$((pasted + 1))
done <"$out/commands"
say "readme: the kit is named, and $pasted commands can be pasted"
