# Part of ./check-tools: the package is the same when it is written twice, is whole, and comes from sources without git
# too. Sets `package`, a copy that stands elsewhere than where it was written, for the checks that follow.

# Each file of a folder with its mode, time and, for a link, its target.
list_files() { (cd "$1" && find . -printf '%p %m %Ts %l\n' | sort); }

quietly ./package
written=$(sed -n 's/^package: //p' "$out/printed")
name=$(basename "$written")
quietly ./package "$out/again"
quietly diff -r --no-dereference "$written" "$out/again/$name"
list_files "$written" >"$out/files-first"
list_files "$out/again/$name" >"$out/files-again"
same "$out/files-first" "$out/files-again" 'the two packages have other files, modes or times'
say "package: $name written twice, the same bytes"

# What fails on the way leaves the folder that was there, and nothing half written.
ends 1 '' env CC=false ./package --as-built "$out/again"
[ "$(ls -A "$out/again")" = "$name" ] || fail 'a package that failed left something behind'
list_files "$out/again/$name" >"$out/files-again"
same "$out/files-first" "$out/files-again" 'a package that failed changed the one that was there'

# The same sources without git, and what is built of them.
mkdir -p "$out/plain/target"
tar -c --exclude=./.git --exclude=./target --exclude='./crates/*/out' . | tar -x -C "$out/plain"
for part in target/staticlib target/tools crates/sheet_printer/out crates/grid_judge/out crates/list_tidier/out; do
    ln -s "$PWD/$part" "$out/plain/$part"
done
quietly env SOURCE_DATE_EPOCH=1 "$out/plain/package" --as-built "$PWD/$out/unknown"
quietly diff -r --no-dereference -x SOURCE -x SHA256SUMS "$written" "$out/unknown/$name"
commit=$(sed -n "s/^archived='\(.*\) .*'\$/\1/p" package)
case $commit in *Format*) commit=unknown ;; esac
grep -q "^commit $commit\$" "$out/unknown/$name/SOURCE" || fail 'SOURCE does not tell what is known of the sources'
list_files "$out/unknown/$name" | awk '$3 != 1 { exit 1 }' || fail 'SOURCE_DATE_EPOCH is not the time of all files'
if [ -e .git ]; then
    commit=$(git rev-parse HEAD)
    grep -q "^commit $commit\$" "$written/SOURCE" || fail 'SOURCE does not tell the commit'
    git archive HEAD package | tar -x -O >"$out/archived"
    grep -q "^archived='$commit [0-9]*'\$" "$out/archived" || fail 'a source archive does not tell its commit'
fi
# rt takes crates for those of the repository wherever they stand in it.
rm -rf "$out/plain"
say 'package: one that fails leaves nothing; sources without git give the same but for SOURCE'

mkdir -p "$out/elsewhere"
mv "$out/again/$name" "$out/elsewhere/"
package=$PWD/$out/elsewhere/$name
(cd "$package" && sha256sum --quiet -c SHA256SUMS) || fail 'the sums of the package are wrong'
sed -n 's/^[a-z].*\(prep_[a-z_]*\)(.*/\1/p' "$package/include/prep.h" | sort >"$out/declared"
for library in "-D $package/lib/libprep.so" "-g $package/lib/libprep.a"; do
    # $library is a list of words.
    nm --defined-only $library | awk 'NF == 3 { print $3 }' | sort >"$out/defined"
    same "$out/declared" "$out/defined" "$library has other names than prep.h"
done
for file in c/checks.c rust/src/raw.rs python/prep/__init__.py; do
    while read -r function; do
        grep -qw "$function" "$package/examples/$file" || fail "$file lacks $function"
    done <"$out/declared"
done
for number in $(sed -n 's/^PREP_REFUSAL(\([0-9]*\),.*/\1/p' include/prep_refusals.def); do
    grep -q "^| $number |" docs/FORMAT.md || fail "docs/FORMAT.md has no row for refusal $number"
done
say "package: the sums hold; both libraries have the $(wc -l <"$out/declared") functions of prep.h and no other names"

# Which functions have unwind tables, as prep.h says under "Debugging".
for object in capi_c words; do
    ar p "$package/lib/libprep.a" "$object.o" >"$out/$object.o"
    readelf -S -W "$out/$object.o" | grep -c -E '\.(eh|debug)_frame' >"$out/tables" || true
    case $object:$(cat "$out/tables") in
    capi_c:0 | words:[!0]*) ;;
    *) fail "the unwind tables of $object.o are not as prep.h says" ;;
    esac
done
say 'package: the words have unwind tables, and the proved functions none, as prep.h says'
