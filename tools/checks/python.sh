# Part of ./check-tools: the Python wrapper in its package, where it finds the library from its own place, and as pip
# installs it, with the library.

(cd "$package/examples/python" && python3 -W error -m unittest test_prep) >"$out/printed" 2>&1 || {
    cat "$out/printed" >&2
    fail 'the tests of the Python wrapper'
}
prints_sheet python3 "$package/examples/python/sheet.py"
say "python: $(sed -n 's/^Ran \([0-9]*\) tests.*/\1/p' "$out/printed") tests and the example, over the shared library"

site=$PWD/$out/site
quietly python3 -m pip install --disable-pip-version-check --no-index --no-deps --target "$site" \
    "$package/examples/python"
for file in __init__.py py.typed libprep.so; do
    [ -f "$site/prep/$file" ] || fail "pip installs no $file"
done
cp "$package/examples/python/sheet.py" "$out/sheet.py"
prints_sheet env PYTHONPATH="$site" python3 "$out/sheet.py"
say 'python: installed by pip, without a network, it prints the example with its own library'
