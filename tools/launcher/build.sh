# What the launcher builds the program by, and what it knows of its sources. Sourced by ./continuity.
# shellcheck shell=bash
# shellcheck disable=SC2154 # top and program are the launcher's

# How long the first use takes: minutes, and the processors for which that is. It was measured from nothing, on four processors
# of 2.5 GHz that had nothing else to do.
measured_minutes=47
measured_processors=4
out=$top/crates/continuity/out

# The lines of crates.txt of the crates that the program stands on, and of its own, in their order.
lines_below() {
    awk '{ line = $0; sub(/#.*/, ""); colon = index($0, ":"); if (!colon) next
            split(substr($0, 1, colon - 1), words, " "); name = words[1]
            count++; names[count] = name; lines[count] = line; needs[name] = substr($0, colon + 1) }
        function visit(name, i, n, parts) {
            if (!(name in needs) || name in seen) return
            seen[name] = 1
            n = split(needs[name], parts, " ")
            for (i = 1; i <= n; i++) visit(parts[i])
        }
        END { visit("continuity"); for (i = 1; i <= count; i++) if (names[i] in seen) print lines[i] }' "$1/crates.txt" 2>/dev/null
}

# Their names.
crates_below() {
    lines_below "$1" | sed 's/[ :].*//'
}

# The names of all but the last two, on which no other stands. When these two are proved there is nothing else to prove.
crates_before_the_last() {
    crates_below "$1" | head -n -2
}

# The folders that a proof reads, whether they are there or not.
folders_below() {
    crates_below "$1" | sed -n 's,.*,crates/&,; s,$,/src,p; s,/src$,/specs,p; s,/specs$,/proofs,p'
}

# A checksum and a name for each source of the program below a folder, the repository or a copy. What is deleted leaves the
# list, too.
sums_of() {
    (cd "$1" && {
        sha256sum HANDLES
        lines_below . | sha256sum
        # shellcheck disable=SC2046 # names of folders have no space
        find $(folders_below .) -type f -print0 | LC_ALL=C sort -z | xargs -0 sha256sum
    }) 2>/dev/null
}

# Where a change shows: the names of what the program is built from, of the folders that this lies in, and of the program.
names_now() {
    (cd "$top" && {
        printf '%s\0' crates.txt HANDLES "${program#"$top"/}"
        crates_below . | sed 's,^,crates/,' | tr '\n' '\0'
        # shellcheck disable=SC2046
        find $(folders_below .) -print0 || :
    }) 2>/dev/null
}

# Whether the program is built from sources with these checksums. Then sizes and times are kept for the next start.
has_its_sums() {
    local looks=''
    # Looked at before the checksums are made, so that what changes meanwhile is seen at the next use. (Nothing is lost where
    # this cannot be written.)
    { rm -f "$program.looks" && names_now >"$program.names" && looks=$(looks_of "$program.names"); } 2>/dev/null
    [ "$(sums_of "$top"; sum_of_program)" = "$(<"$program.sums")" ] || return 1
    [ -z "$looks" ] || { echo "$looks" >"$program.looks"; } 2>/dev/null
    return 0
}

sum_of_program() {
    sha256sum <"$program"
}

# Says why nothing can be built here, if so.
lacks() {
    local crate
    if [ ! -f "$top/crates.txt" ] || [ ! -f "$top/HANDLES" ]; then
        say "this copy of the repository is not whole: crates.txt or HANDLES is not in $top"
        return 0
    fi
    if [ -z "$(crates_below "$top")" ]; then
        say "crates.txt has no line for continuity"
        return 0
    fi
    for crate in $(crates_below "$top"); do
        [ -d "$top/crates/$crate/src" ] && continue
        say "this copy of the repository is not whole: crates/$crate/src is not there"
        return 0
    done
    command -v rt >/dev/null && return 1
    say "the program is not built, and rt, the command that proves and builds it, is not on the PATH"
}

# Whether what is built could be put where it belongs: asked before it is proved.
can_write() {
    mkdir -p "$out" 2>/dev/null && { : >"$program.log"; } 2>/dev/null && [ -w "$out" ] && return
    say "the program is not built, and $out, where it belongs, cannot be written"
    return 1
}

# A copy of the crates that the program stands on, without what must be refused, so that one run of the gate's command
# proves them, side by side where they are independent, and builds the program. All that a check reads is copied, and each
# line of crates.txt as it stands, so that what the gate has proved is kept for this, and the other way round.
copied() {
    local repository=$1 crate part
    mkdir -p "$repository/.git" "$repository/crates" || return 1
    cp "$top/HANDLES" "$repository/HANDLES" && lines_below "$top" >"$repository/crates.txt" || return 1
    for crate in $(crates_below "$repository"); do
        mkdir "$repository/crates/$crate" || return 1
        for part in "$top/crates/$crate"/*; do
            case ${part##*/} in out | must-fail) continue ;; esac
            cp -R "$part" "$repository/crates/$crate/" || return 1
        done
    done
}

# Each crate's share of the work, by its lines: a name and a number a line.
shares_of() {
    local crate
    for crate in $(crates_below "$1"); do
        echo "$crate $(find "$1/crates/$crate" -type f \( -name '*.rt' -o -name '*.antt' \) -exec cat {} + | wc -l)"
    done
}

# Reads what rt says, writes it to the log, and says which crate is proved: one line that moves on a terminal, else a line a
# crate. Ends early, with 1, where a crate is not proved.
show_progress() {
    local repository=$1 log=$2 jobs=$3 line='' part code name count last=''
    local all_lines=0 done_lines=0 proved_lines=0 crates=0 at=0
    # (a crate that the second run of rt finds kept is not told twice)
    local -A lines=() told=()
    while read -r name count; do
        lines[$name]=$count
        all_lines=$((all_lines + count))
        crates=$((crates + 1))
    done < <(shares_of "$repository")
    SECONDS=0
    while true; do
        part=''
        IFS= read -r -t 2 part
        code=$?
        line+=$part
        if ((code > 128)); then
            [ ! -t 2 ] || show_line
            continue
        fi
        [ "$code" = 0 ] || [ -n "$line" ] || break
        line=${line//"$repository"/"$top"}
        printf '%s\n' "$line" >>"$log"
        if [[ $line =~ ^rt:\ ([a-z0-9_]+)\ (proved$|is\ kept) ]] && [ -z "${told[${BASH_REMATCH[1]}]-}" ]; then
            last=${BASH_REMATCH[1]}
            told[$last]=1
            at=$((at + 1))
            done_lines=$((done_lines + ${lines[$last]:-0}))
            [ "${BASH_REMATCH[2]}" != proved ] || proved_lines=$((proved_lines + ${lines[$last]:-0}))
            show_line
        elif [[ $line =~ ^rt:\ ([a-z0-9_]+):.*\ another\ run\ .*\ is\ proving\ the\ same ]]; then
            say "another run on this machine proves ${BASH_REMATCH[1]}; waiting for it"
        elif [[ $line =~ ^rt:\ ([a-z0-9_]+)(: its tests are)?\ NOT\ PROVED ]]; then
            [ ! -t 2 ] || echo >&2
            say "${BASH_REMATCH[1]} is not proved"
            return 1
        fi
        line=''
        [ "$code" = 0 ] || break
    done
    [ ! -t 2 ] || echo >&2
    return 0
}

# Where the work is, of the variables of show_progress. What is left is guessed from the lines that are left: at first from
# what was measured, and then more and more from how fast this run is.
show_line() {
    local text share=$((all_lines / 2 + 1)) expected left
    expected=$((60 * measured_minutes * measured_processors / jobs))
    left=$(((all_lines - done_lines) * (SECONDS + expected / 2) / (proved_lines + share)))
    text="crate $at of $crates${last:+, $last}; $((SECONDS / 60)) minutes so far, about $(((left + 59) / 60)) more"
    if [ -t 2 ]; then
        printf '\rcontinuity: %s\033[K' "$text" >&2
    else
        say "$text"
    fi
}

# Ends rt, whose process group is its own, with all that it has started, and removes the copy.
rt_group=
room=
clean_up() {
    local tries
    if [ -n "$rt_group" ]; then
        kill -TERM -- "-$rt_group" 2>/dev/null
        for ((tries = 0; tries < 50; tries++)); do
            kill -0 -- "-$rt_group" 2>/dev/null || break
            sleep 0.1
        done
        kill -KILL -- "-$rt_group" 2>/dev/null
        rt_group=
    fi
    # (what rt has started may still write there for a moment)
    [ -z "$room" ] || rm -rf "$room" 2>/dev/null || { sleep 1; rm -rf "$room"; }
    room=
}

# Ends as a signal does, once all is cleaned up.
interrupted() {
    trap - "$1"
    [ ! -t 2 ] || echo >&2
    say "interrupted; what was proved is kept"
    clean_up
    kill -s "$1" "$$"
}

clean_up_at_the_end() {
    local signal
    trap clean_up EXIT
    # shellcheck disable=SC2064
    for signal in HUP INT TERM; do trap "interrupted $signal" "$signal"; done
}

# A folder for what is made on the way, which is removed however this ends. (As root, rt runs programs as nobody, who has to
# reach them below it.)
make_room() {
    room=$(mktemp -d "${TMPDIR:-/tmp}/continuity-build-XXXXXX") && mkdir -m 711 "$room/tmp" && chmod 711 "$room" && return
    say "there is no room for a copy of the sources in ${TMPDIR:-/tmp}"
    return 1
}

# Proves and builds what stands in a folder, in a process group of its own, which says what it has to say to a pipe. So many
# crates are proved at once. The last two are one chain: where nobody has said how many, rt gives each of them, alone, all
# the processors that memory allows.
start_rt() {
    local folder=$1 jobs=$2 given=${RT_JOBS-} first
    first=$(crates_before_the_last "$folder")
    mkfifo "$room/said"
    set -m
    (
        cd "$folder" && export TMPDIR=$room/tmp RT_JOBS=$jobs || exit
        if [ -z "$given" ] && [ -n "$first" ]; then
            # shellcheck disable=SC2086 # names of crates have no space
            rt ci $first || exit
            unset RT_JOBS
        fi
        exec rt ci
    ) </dev/null >"$room/said" 2>&1 9<&- &
    rt_group=$!
    set +m
}

build() {
    local repository jobs status sums
    lacks && return 1
    can_write && make_room || return 1
    repository=$room/repository
    if ! copied "$repository" || ! sums=$(sums_of "$repository"); then
        say "the sources could not be copied to $room"
        return 1
    fi
    jobs=$("$top/tools/at_once") || jobs=1
    say "the program is not built yet. Proving and building it takes about $measured_minutes minutes on $measured_processors processors"
    say "(here $jobs crates are proved at once). What is proved is kept: if this is interrupted, the next use goes on from there."
    start_rt "$repository" "$jobs"
    show_progress "$repository" "$room/log" "$jobs" <"$room/said"
    status=$?
    if [ "$status" = 0 ]; then
        wait "$rt_group"
        status=$?
        rt_group=
    fi
    if [ "$status" != 0 ] || [ ! -x "$repository/crates/continuity/out/continuity" ]; then
        say "the program could not be proved and built. The last lines of what rt said:"
        tail -n 20 "$room/log" >&2
        mkdir -p "$out" && cp "$room/log" "$program.log" && say "all of it is in $program.log"
        return 1
    fi
    install_program "$repository/crates/continuity/out/continuity" "$sums" && return
    say "the program is proved and built, but could not be put in its place, $out"
    return 1
}

# Puts the program in its place, and then that it stands there.
install_program() {
    mkdir -p "$out" && rm -f "$program.sums" "$program.names" "$program.looks" "$program.log" || return 1
    cp "$1" "$program.new" && chmod 755 "$program.new" && mv -f -T "$program.new" "$program" || return 1
    { printf '%s\n' "$2" && sum_of_program; } >"$program.sums"
}

# One launcher builds at a time, where flock is there to tell; another one waits, and then finds the program built. The
# lock is on the folder of the program's source, which rt itself does not lock.
wait_for_others() {
    command -v flock >/dev/null && [ -r "$top/crates/continuity/src" ] || return 0
    exec 9<"$top/crates/continuity/src"
    flock -n 9 && return
    say "another launcher builds the program; waiting for it"
    flock 9
}

# Runs a command by a program that nothing has proved: rt builds it of the sources as they are now, runs it and keeps it
# nowhere. What it prints comes once it has ended.
unproved() {
    local status
    clean_up_at_the_end
    if lacks || ! make_room; then exit 70; fi
    say "UNPROVED: this report will be that of a program of which nothing is proved; it is built anew each time, in about two minutes"
    # (rt takes what standard input gives until it is silent for two seconds; a load reads nothing)
    if [ "$1" = load ]; then : >"$room/document"; else cat >"$room/document"; fi
    set -m
    # (it is compiled, and interpreted for one step only, since the interpreter cannot read arguments)
    (cd "$top/crates/continuity" && TMPDIR=$room/tmp exec rt try --steps 1 -- "$@") <"$room/document" 2>"$room/told" &
    rt_group=$!
    set +m
    wait "$rt_group"
    rt_group=
    status=$(sed -nE 's/^run=ended status=([0-9]+) .*proved=no$/\1/p' "$room/told" | tail -n 1)
    if [ -z "$status" ]; then
        say "the program could not be built or run. The last lines of what rt said:"
        tail -n 20 "$room/told" >&2
        status=70
    else
        grep '^continuity: ' "$room/told" >&2
        { [ "$status" != 5 ] && [ "$status" != 6 ]; } || in_words <"$room/told" >&2
    fi
    say "UNPROVED"
    exit "$status"
}

