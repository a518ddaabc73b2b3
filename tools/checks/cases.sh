# Part of ./check-tools: the stored cases of every operation at the C boundary, compared with what is owed for them,
# and generated sheets that book the same for one desk, compared with each other.

# Builds a host from its sources: HOST SOURCE...
build_host() {
    host=$1
    shift
    quietly $cc -std=c11 -O2 -Wall -Wextra -Werror -pedantic -I"$package/include" "$@" "$package/lib/libprep.a" \
        -o "$out/$host"
}

checks=tools/checks
build_host cases $checks/cases.c $checks/readers.c $checks/sheet.c $checks/judge.c $checks/tidy.c
build_host desks $checks/desks.c

stored=crates/cases
through "$out/cases" $stored/stdin $stored/stdout
say "cases: $(cat "$out/number") stored cases through the static library in C"

through "PYTHONPATH='$package/examples/python' python3 $checks/cases.py" $stored/stdin $stored/stdout
say "cases: $(cat "$out/number") stored cases through the shared library in Python"

quietly "$tools" desk-pairs "$out/pairs" "$seed" "$count"
quietly "$out/desks" <"$out/pairs"
say "desks: $(cat "$out/printed") generated pairs (seed $seed) that book the same for one desk, typed the same for it"
