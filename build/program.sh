# The two things that are built, the program and the library for C: what one is made of, and whether that is what its
# sources are now.
program=$root/crates/kin_cmd/out/kin_cmd
library=$root/crates/kin_c/out/libkin_c.a

# From here on all is about this one of the two, which is called so.
aim_at() {
    product=$1 called=$2
    crate=${product%/out/*}
    goal=${crate##*/}
    # A line each for the rt that built it and for the kit of that rt; then what crates.txt said, and the source folders.
    record=$crate/out/made_of
}
aim_at "$program" program

# The lines of crates.txt on its crates, each after those of the crates that it uses, without the colon and comments.
lines() {
    awk -v goal="$goal" '
        function visit(name, words, last, i) {
            if (!(name in line) || seen[name]++) return
            last = split(line[name], words)
            for (i = 2; i <= last; i++) visit(words[i])
            print line[name]
        }
        { sub(/#.*/, ""); sub(/:/, " "); $1 = $1 }
        NF { line[$1] = $0 }
        END { visit(goal) }' "$root/crates.txt"
}

# The folders of its sources.
folders() {
    local name part
    for name in $(lines | cut -d ' ' -f 1); do
        for part in src specs proofs; do
            [ ! -d "$root/crates/$name/$part" ] || echo "$name/$part"
        done
    done
}

kit_of_rt() {
    command -v rt >/dev/null && rt version | head -n 1
}

kit_of_record() {
    [ -f "$record" ] && sed -n 2p "$record"
}

# Which file rt is, and since when: rt itself takes a while to say which kit it is of.
mark_of_rt() {
    stat -c '%n %i %Z' -- "$(readlink -f "$(command -v rt)")" 2>/dev/null
}

# Whether it was built by the kit that is found, if any, from the same lines of crates.txt and the same folders.
is_same_record() {
    local mark
    mark=$(mark_of_rt)
    [ "$(tail -n +3 "$record" 2>/dev/null)" = "$(lines && folders)" ] &&
        { [ -z "$mark" ] || [ "$mark" = "$(head -n 1 "$record")" ] || [ "$(kit_of_rt)" = "$(kit_of_record)" ]; }
}

# Whether nothing below these paths was written or put there after the file was written. A copy may keep the time of its
# original, but not the time at which it came.
is_newer_than_all() {
    local file=$1 found
    shift
    found=$(find "$@" \( -newer "$file" -o -cnewer "$file" \) -print -quit 2>/dev/null) && [ -z "$found" ]
}

# Whether the file is there and newer than all sources of these crates. Where a file was removed, its folder is newer.
is_newest() {
    local file=$1 name part sources=()
    shift
    [ -e "$file" ] || return
    for name in "$@"; do
        [ -d "$root/crates/$name/src" ] || return
        for part in src specs proofs; do
            [ ! -d "$root/crates/$name/$part" ] || sources+=("$root/crates/$name/$part")
        done
    done
    [ ${#sources[@]} -gt 0 ] && is_newer_than_all "$file" "${sources[@]}"
}

# Whether it is made of what its sources, its lines of crates.txt and its kit are now. Where rt itself built it there is no
# record of that, so all of crates.txt and the file of rt count.
is_fresh() {
    is_newest "$product" $(lines | cut -d ' ' -f 1) || return 1
    if [ -f "$record" ] && ! [ "$product" -nt "$record" ]; then
        is_same_record
    else
        is_newer_than_all "$product" "$root/crates.txt" &&
            { ! command -v rt >/dev/null || is_newer_than_all "$product" "$(readlink -f "$(command -v rt)")"; }
    fi
}
