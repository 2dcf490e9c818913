# What the program is built from, and the stamp that says from which sources it was built. A script reads this file with `.`,
# and sets $home before, the folder of the checkout.

program=$home/crates/now/out/now
stamp=$home/crates/now/out/now.stamp
watched=$home/crates/now/out/now.watched

# The lines of crates.txt of the crates that the program is made of, itself the last, each behind the ones that it stands on.
lines_below() {
    awk '
        function visit(name, list, count, i) {
            if (name in seen || !(name in below)) return
            seen[name] = 1
            count = split(below[name], list, " ")
            for (i = 1; i <= count; i++) visit(list[i])
            print line[name]
        }
        { sub(/#.*/, ""); $1 = $1 }
        NF { split($0, half, ":"); split(half[1], word, " "); below[word[1]] = half[2]; line[word[1]] = $0 }
        END { visit("now") }' "$home/crates.txt"
}

# The folders of these crates and what lies in their src/, specs/ and proofs/, from $home on. The words narrow it down, as those of find do.
paths_below() {
    (cd "$home" && find $(lines_below | sed 's/[ :].*//; s,^,crates/,') \
        -regex 'crates/[^/]*/[^/]*' ! -name src ! -name specs ! -name proofs -prune -o "$@" -print)
}

# A line that stands for all that the program is built from, but for the kit.
sources_sum() {
    {
        lines_below
        cat "$home/HANDLES" 2>/dev/null
        paths_below -type f | LC_ALL=C sort | (cd "$home" && xargs -d '\n' cksum)
    } | cksum
}

# A line for what is on the disk of the paths in the file $1: it changes with each write, and where a file goes or comes, also one with an old time.
# It says nothing of the text, but costs less.
disk_sum() {
    (cd "$home" && xargs -d '\n' stat -c '%i %s %.9Z' <"$1") 2>/dev/null | cksum
}

# The kit's version, and nothing where there is no kit.
kit_version() {
    command -v rt >/dev/null && rt version 2>/dev/null
}

# Writes the stamp of the program as it stands, if the present sources have the sum $1. Whoever calls knows that it was built from these.
# $kit is the version of the kit that built it, where there is no kit any more.
write_stamp() {
    tool=$(command -v rt)
    {
        echo crates.txt
        echo HANDLES
        echo crates/now/out/now
        [ "$tool" ] && echo "$tool" && readlink -f "$tool"
        paths_below
    } >"$watched.new"
    disk=$(disk_sum "$watched.new")
    made=$(cksum <"$program")
    # What changes meanwhile changes one of the two sums.
    [ "$(sources_sum)" = "$1" ] && [ "$(disk_sum "$watched.new")" = "$disk" ] || return 1
    now=$(kit_version)
    mv "$watched.new" "$watched" && printf '%s\n' "$1" "$made" "$tool" "$disk" "${now:-$kit}" >"$stamp.new" && mv "$stamp.new" "$stamp"
}

# Whether the program stands and was built from the present sources.
is_current() {
    sum= made= tool= disk= kit=
    [ -x "$program" ] && [ -f "$stamp" ] || return 1
    { read -r sum && read -r made && read -r tool && read -r disk && read -r kit; } <"$stamp"
    [ "$tool" = "$(command -v rt)" ] && [ "$disk" = "$(disk_sum "$watched")" ] && return
    now=$(kit_version)
    [ "$sum" = "$(sources_sum)" ] && [ "$made" = "$(cksum <"$program")" ] && [ "${now:-$kit}" = "$kit" ] || return 1
    write_stamp "$sum" || :
}
