# Part of ./package: the programs that are proved, as rt built them, and prep-tools, the other implementation.

mkdir -p "$folder/bin"
for program in $programs; do
    install -m 755 "$(built "$program")" "$folder/bin/"
done
strip -o "$folder/bin/prep-tools" "$tools"
