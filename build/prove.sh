# Proves the crates of the program or of the library, whichever is aimed at, many side by side, and builds it: the goal.
#
# `rt lib` locks the folders of its crate and of all crates below, so two crates over one base would wait for each other in
# one tree. So there are lanes, trees below out/build/ with the sources as they were when the build began. In each lane one
# crate is proved at a time, from what was proved of the crates below. What comes out goes back to the crate's folder.
work=$crate/out/build
log=$crate/out/build.log

# The goal's crates, each after those below it.
names=()
# Of a crate: all crates below it; how long it takes, in lines of code; the same for it and the longest way up to the goal.
declare -A below=() weight=() way=()
# Of a crate: that it is proved; the process that proves it, since when, and in which lane.
declare -A is_proved=() pid=() since=() lane=()
locks=()
# When the build began, in seconds; nothing before it holds the locks.
began=
failed=

# The least of some numbers.
least() {
    printf '%s\n' "$@" | sort -n | head -n 1
}

# How many crates are proved at a time: one a processor, as far as there are 3 GB of memory for each.
lanes() {
    local memory found
    memory=$(awk '/^MemAvailable:/ { print int($2 / 3000000) }' /proc/meminfo 2>/dev/null)
    found=$(least "${memory:-1}" "$processors")
    echo $((found > 1 ? found : 1))
}

# What the tables above say of each crate. What takes time is its code, since a lemma is read much faster, and to load the
# crates below: as much for each as 60 lines.
read_crates() {
    local name deps dep it at
    while read -r name deps; do
        names+=("$name")
        weight[$name]=$(find "$root/crates/$name/src" -type f -exec cat {} + | wc -l)
        for dep in $deps; do
            # One that is no crate here is of the kit.
            for it in ${weight[$dep]:+${below[$dep]} $dep}; do
                [[ " ${below[$name]} " == *" $it "* ]] || below[$name]+=" $it"
            done
        done
        for it in ${below[$name]}; do
            weight[$name]=$((${weight[$name]} + 60))
        done
    done < <(lines)
    for ((at = ${#names[@]} - 1; at >= 0; at--)); do
        name=${names[at]}
        way[$name]=$((${way[$name]:-0} + weight[$name]))
        for dep in ${below[$name]}; do
            [ "${way[$dep]:-0}" -ge "${way[$name]}" ] || way[$dep]=${way[$name]}
        done
    done
}

# Whether all these crates are proved.
are_proved() {
    local it
    for it in "$@"; do
        [ -n "${is_proved[$it]}" ] || return 1
    done
}

# The crates of the program and of the library, as far as the record of either is still right.
recorded() {
    (aim_at "$program" program && is_same_record && lines)
    (aim_at "$library" library && is_same_record && lines)
}

# Finds the crates whose library is newer than all that it is made of. This saves time and decides nothing:
# rt looks at all libraries again, by their contents, when it builds the goal.
find_proved() {
    local name known
    known=" $(recorded | cut -d ' ' -f 1 | xargs) "
    for name in "${names[@]}"; do
        [ "$name" != "$goal" ] && [[ $known == *" $name "* ]] && are_proved ${below[$name]} &&
            is_newest "$root/crates/$name/out/rlib/stamp" "$name" ${below[$name]} && is_proved[$name]=1
    done
}

# Keeps every other rt and kin out of the crates' folders, as rt does, in rt's order. What this starts keeps them out, too,
# until it ends.
lock_folders() {
    local name lock
    for name in $(printf '%s\n' "${names[@]}" | LC_ALL=C sort); do
        exec {lock}<"$root/crates/$name" && locks+=("$lock")
        flock -n "$lock" && continue
        say "waiting for another kin or rt to finish in crates/$name"
        # (a shell that waits for a process of its own ends when it is told to)
        flock "$lock" &
        wait $! || return
    done
}

# Makes a second folder of the same files, or of copies where the file system gives a file no second name.
double() {
    cp -al -- "$1" "$2" 2>/dev/null || { rm -rf -- "$2" && cp -a -- "$1" "$2"; }
}

# Keeps the sources as they are now, so that what changes from here on counts for the next build.
keep_sources() {
    local name it
    for name in "${names[@]}"; do
        mkdir -p "$work/sources/crates/$name/out" || return
        for it in "$root/crates/$name"/*; do
            [ "${it##*/}" = out ] || cp -R -- "$it" "$work/sources/crates/$name" || return
        done
    done
    # rt wants a folder for each line.
    grep -E "^[[:space:]]*($(IFS='|' && echo "${names[*]}"))[[:space:]:]" "$root/crates.txt" >"$work/sources/crates.txt"
}

# Finds a lane in which nothing is proved, and makes it if need be.
find_lane() {
    local number=1
    while [[ " ${lane[*]} " == *" $number "* ]]; do
        number=$((number + 1))
    done
    lane[$1]=$number
    [ -d "$work/$number" ] || double "$work/sources" "$work/$number"
}

# About how many lines are left of a crate that is being proved, with the longest way up: some 13 a second are done.
left() {
    echo $((way[$1] - $(least "${weight[$1]}" $((13 * ($(date +%s) - since[$1]))))))
}

# Begins with the proof of a crate, or with that of the goal and its build. All waits for the crate whose way up is the
# longest, so it goes first, in up to four jobs. The one with the next longest way is often waited for together with it, so it
# gets two, and goes second. The others get one each, since more jobs take more time of the processors in all.
start() {
    local name=$1 command=lib crates it jobs=4 later=0
    [ "$name" != kin_cmd ] || command=run
    find_lane "$name" || return
    crates=$work/${lane[$name]}/crates
    for it in ${below[$name]} "$name"; do
        [ -d "$crates/$it/out/rlib" ] || [ ! -d "$root/crates/$it/out/rlib" ] ||
            double "$root/crates/$it/out/rlib" "$crates/$it/out/rlib" || return
    done
    # What was proved of the crate before isn't proved again.
    [ ! -d "$root/crates/$name/out/incremental" ] ||
        mv -- "$root/crates/$name/out/incremental" "$crates/$name/out" || return
    for it in "${!pid[@]}"; do
        [ "$(left "$it")" -lt "${way[$name]}" ] || { jobs=$((jobs > 1 ? jobs / 2 : 1)) && later=$((later < 10 ? later + 5 : 10)); }
    done
    (cd "$crates/$name" && exec nice -n $later rt $command --jobs "$(least $jobs "$processors")" </dev/null >"$work/$name.log" 2>&1) &
    pid[$name]=$! since[$name]=$(date +%s)
}

# Puts some parts of what a lane has of a crate into the crate's folder: always what was proved of it.
bring_back() {
    local name=$1 from=$work/${lane[$1]}/crates/$1/out to=$root/crates/$1/out it status=0
    shift
    mkdir -p "$to"
    for it in incremental "$@"; do
        [ -e "$from/$it" ] || continue
        [ ! -d "$to/$it" ] || rm -rf -- "${to:?}/$it"
        mv -f -- "$from/$it" "$to" || status=1
    done
    unset "lane[$name]"
    return $status
}

# The crates that can be begun with, those first whose way up is the longest.
ready() {
    local name
    for name in "${names[@]}"; do
        [ -z "${is_proved[$name]}${pid[$name]}" ] && are_proved ${below[$name]} && echo "${way[$name]} $name"
    done | sort -k 1,1nr | cut -d ' ' -f 2
}

# Begins with as many crates as may be proved at a time, those first whose way up is the longest.
start_ready() {
    local name
    for name in $(ready); do
        [ ${#pid[@]} -lt "$at_once" ] || break
        start "$name" || return
    done
}

# Says what the prover said of a crate, but for what is proved.
tell_failure() {
    grep -vE '^(checked |so far: |logic /)|: (proved|ok|modules loaded=.*)$' >&2
}

# Takes in what the process of a crate has left, which ended with this status. That of `rt run` is the program's own.
# All that is built is as old as its sources, of which some may have changed meanwhile.
finish() {
    local name=$1 out=$work/${lane[$1]}/crates/$1/out built=${product##*/}
    unset "pid[$name]"
    { echo "== $name" && cat "$work/$name.log"; } >>"$log"
    if [ "$name" = "$goal" ] && [ -e "$out/$built" ]; then
        rm -f "$record"
        touch -r "$work/began" "$out/$built" "$work/made_of"
        bring_back "$name" $(cd "$out" && echo "$built"*) && mv "$work/made_of" "$record" || failed=1
    elif [ "$name" != "$goal" ] && [ "$2" -eq 0 ]; then
        touch -r "$work/began" "$out/rlib/stamp"
        bring_back "$name" rlib
    else
        failed=1
        say "$name isn't proved:"
        tell_failure <"$work/$name.log"
        bring_back "$name"
        return
    fi
    is_proved[$name]=1
    ended=$((ended + 1))
    say "$ended of $total crates done after $(($(date +%s) - began)) s: $name"
}

# Says once a minute that the work goes on.
tell_minute() {
    local now=$((($(date +%s) - began) / 60))
    [ $now -gt $minute ] || return
    minute=$now
    say "still at work after $minute min, $ended of $total crates done"
}

# Proves crate after crate, until the goal is built, or one has failed and those that were begun with have ended.
prove() {
    local name clock minute=0
    while :; do
        [ -n "$failed" ] || start_ready || failed=1
        [ ${#pid[@]} -gt 0 ] || break
        # The next thing to end is one of the crates, or this.
        kill -0 "$clock" 2>/dev/null || { sleep 5 & clock=$!; }
        wait -n
        tell_minute
        for name in "${!pid[@]}"; do
            kill -0 "${pid[$name]}" 2>/dev/null && continue
            wait "${pid[$name]}"
            finish "$name" $?
        done
    done
    [ -z "$failed" ] && [ -n "${is_proved[$goal]}" ]
}

# Takes in what a build has left that was cut off, and makes out/build anew.
make_work() {
    local it name
    for it in "$work"/*/crates/*/out/incremental; do
        name=$(basename "${it%/out/incremental}")
        [ ! -d "$it" ] || [ -e "$root/crates/$name/out/incremental" ] ||
            { mkdir -p "$root/crates/$name/out" && mv -- "$it" "$root/crates/$name/out"; }
    done
    rm -rf -- "$work" && mkdir -p "$work" && touch "$work/began" && : >"$log" && keep_sources &&
        printf '%s\n' "$(mark_of_rt)" "$(kit_of_rt)" "$(lines && folders)" >"$work/made_of"
}

# About how many minutes it takes to prove what isn't proved from nothing.
minutes() {
    local name all=0 longest=0
    for name in "${names[@]}"; do
        [ -z "${is_proved[$name]}" ] || continue
        all=$((all + weight[$name]))
        longest=$((way[$name] > longest ? way[$name] : longest))
    done
    # On one processor a minute for 800 lines. Of the longest way a part doesn't get shorter by more processors.
    echo $(((10 * all + 2 * (processors - 1) * longest) / (processors * 8000) + 1))
}

# Ends all that runs, keeps what it has proved so far, and takes everything else away.
clear_up() {
    local it
    trap '' INT TERM HUP PIPE
    trap - EXIT
    kill $(jobs -p) 2>/dev/null
    wait
    for it in "${!lane[@]}"; do
        bring_back "$it"
    done
    # (what a killed rt had started ends a moment later)
    [ -z "$began" ] || rm -rf -- "$work" 2>/dev/null || { sleep 1 && rm -rf -- "$work"; }
    for it in "${locks[@]}"; do
        exec {it}<&-
    done
    trap - INT TERM HUP PIPE
}

# Proves what isn't proved and builds the goal, or says why not.
build() {
    local at_once total ended=0 processors
    trap 'exit 130' INT
    trap 'exit 143' TERM
    trap 'exit 129' HUP
    trap 'exit 141' PIPE
    trap clear_up EXIT
    mkdir -p "$crate/out" && read_crates && lock_folders || return
    # Another call may have built it meanwhile.
    if ! is_fresh; then
        began=$(date +%s)
        processors=$(nproc 2>/dev/null || echo 1)
        at_once=$(lanes)
        make_work || return
        find_proved
        total=$((${#names[@]} - ${#is_proved[@]}))
        say "the $called is missing or older than its sources; crates to prove: $total, $at_once at a time"
        say "from nothing that takes about $(minutes) min; what is proved is kept"
        if ! prove; then
            say "not proved, so no $called was built; all that was said is in $log"
            return 1
        fi
    fi
    clear_up
}
