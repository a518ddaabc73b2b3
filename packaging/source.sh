# Part of ./package: where the sources come from. Sets `source`, as the file SOURCE tells it, and `time`, which all
# files of the package have: the commit's, or that of the newest file, unless SOURCE_DATE_EPOCH is set.

if [ -e .git ]; then
    source="commit $(git rev-parse HEAD)"
    time=$(git log -1 --format=%ct)
    # What is packaged may differ from the commit; then it says so.
    if [ -n "$(git status --porcelain)" ]; then
        source="$source
changed since that commit"
    fi
elif [ "${archived#*Format}" = "$archived" ]; then
    source="commit ${archived% *}
taken from a source archive of it"
    time=${archived#* }
else
    source='commit unknown'
    time=$(find . \( -path ./target -o -path './crates/*/out' \) -prune -o -type f -printf '%T@\n' | sort -n |
        sed -n '$s/\..*//p')
fi
time=${SOURCE_DATE_EPOCH:-$time}
