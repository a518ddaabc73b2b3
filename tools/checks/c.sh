# Part of ./check-tools: the examples in C and C++, linked through pkg-config and through CMake, with both libraries.

flags='-O2 -Wall -Wextra -Werror -pedantic -D_POSIX_C_SOURCE=200809L'
mkdir -p "$out/c"
export PKG_CONFIG_PATH="$package/lib/pkgconfig"
include=$(pkg-config --cflags prep)
libraries=$(pkg-config --libs prep)

# Runs the examples that were built in a folder.
run_examples() {
    prints_sheet "$1/main"
    quietly "$1/checks"
    quietly "$1/stack"
}

# Names that platforms define as macros, in front of the header.
macros='-Dsmall=char -Dhyper=long -Dnear= -Dfar= -Dinterface=struct -DIN= -DOUT= -DERROR=0 -Dunix=1 -Dlinux=1'
# $flags, $include, $libraries and $macros are lists of words.
quietly $cc -std=c11 $flags $include $macros -fsyntax-only -x c "$package/include/prep.h"
quietly $cxx -std=c++11 $flags $include $macros -fsyntax-only -x c++ "$package/include/prep.h"
say "c: prep.h compiles as C11 and C++11, after macros that some platforms have"

for example in main checks stack; do
    quietly $cc -std=c11 $flags $include "examples/c/$example.c" $libraries -pthread -Wl,-rpath,"$package/lib" \
        -o "$out/c/$example"
done
run_examples "$out/c"
most=$(awk '$2 > most { most = $2 } END { print most }' "$out/printed")
say "c: the examples in C, through pkg-config with the shared library; at most $most bytes of stack"

mkdir -p "$out/cxx"
for example in main checks stack; do
    quietly $cxx -x c++ -std=c++11 $flags $include "examples/c/$example.c" -x none -Wl,-Bstatic $libraries \
        -Wl,-Bdynamic -pthread -o "$out/cxx/$example"
done
run_examples "$out/cxx"
say "c: the examples in C++, through pkg-config with the static library"
unset PKG_CONFIG_PATH

for setting in C:OFF CXX:ON; do
    folder=$out/cmake-${setting%:*}
    quietly cmake -S "$package/examples/c" -B "$folder" -DCMAKE_PREFIX_PATH="$package" \
        -DCMAKE_C_COMPILER="$cc" -DCMAKE_CXX_COMPILER="$cxx" -DPREP_LANGUAGE="${setting%:*}" \
        -DBUILD_SHARED_LIBS="${setting#*:}" -DCMAKE_C_FLAGS="$flags" -DCMAKE_CXX_FLAGS="$flags"
    quietly cmake --build "$folder"
    run_examples "$folder"
done
say "c: the examples through CMake, in C with the static library, in C++ with the shared one"
