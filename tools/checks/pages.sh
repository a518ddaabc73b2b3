# Part of ./check-tools: the pages of the package lead nowhere else.

quietly python3 tools/checks/pages.py "$package" .
pages=$(cat "$out/printed")

# A page that leads elsewhere is told.
mkdir -p "$out/pages/docs"
printf '# A page\n\nSee [why](DECISIONS.md).\n' >"$out/pages/docs/LINK.md"
ends 1 'LINK.md:3: DECISIONS.md' python3 tools/checks/pages.py "$out/pages" .
printf '# A page\n\nSee [there](#a-pag).\n' >"$out/pages/docs/LINK.md"
ends 1 'LINK.md:3: #a-pag' python3 tools/checks/pages.py "$out/pages" .
printf '# A page\n\nIt is `docs/LINK.md`, and `crates/words/src` has the code.\n' >"$out/pages/docs/LINK.md"
ends 1 'LINK.md:3: crates/words/src' python3 tools/checks/pages.py "$out/pages" .
printf '# A page\n\n    ./package && ls\n' >"$out/pages/docs/LINK.md"
ends 1 'LINK.md:3: ./package' python3 tools/checks/pages.py "$out/pages" .
say "pages: $pages"

# Versions were steps of the work so far, and a stored list is known by its form, not by one of them.
grep -qF 'No version was handed out yet' "$package/CHANGELOG.md" || fail 'CHANGELOG.md speaks of a version handed out'
! grep -niE 'version before|before version' "$package/include/prep.h" || fail 'prep.h knows a list by a version'
say 'pages: no page takes a version for handed out'
