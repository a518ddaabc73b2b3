# Part of ./package: the static and the shared library, from the proved functions and the words in C.

objects=$work/objects
mkdir -p "$objects" "$folder/lib"
ar x --output "$objects" "$proved"
# $cc is a list of words.
$cc -std=c11 -O2 -fPIC -Wall -Wextra -Werror -pedantic -Iinclude -c packaging/words.c -o "$objects/words.o"

ar rcD "$folder/lib/libprep.a" "$objects"/*.o
$cc -shared -nostartfiles -o "$folder/lib/libprep.so.$version" "$objects"/*.o \
    -Wl,-soname,"libprep.so.$major" -Wl,--version-script=packaging/prep.map -Wl,-z,defs -Wl,-z,relro -Wl,-z,now \
    -Wl,-z,noexecstack -Wl,--build-id=none -s
ln -s "libprep.so.$version" "$folder/lib/libprep.so.$major"
ln -s "libprep.so.$major" "$folder/lib/libprep.so"

# Whoever links the library sees the names of prep.h and no others, and it asks for memset alone.
strangers=$(nm -g --defined-only "$folder/lib/libprep.a" | awk 'NF == 3 && $3 !~ /^prep_/'
    nm -D --defined-only "$folder/lib/libprep.so" | awk '$3 !~ /^prep_/'
    nm -D --undefined-only "$folder/lib/libprep.so" | awk '$2 !~ /^memset@/')
[ -z "$strangers" ] || fail "the library has or needs names that it should not: $strangers"
