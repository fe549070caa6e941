# shellcheck shell=sh disable=SC2154
# Proves and builds the program in a clone. It is a part of the script `pazturrok`, and no command.

# What rt needs on the disk to prove, and to keep what it proved. Both in megabytes.
ROOM_TO_PROVE=3000
ROOM_TO_KEEP=5000

# Copies these crates into the room, as a repository of their own: what the program is proved from, without the edits that the gate tries.
copy_crates() {
    cp "$top/HANDLES" "$room/"
    for name in "$@"; do
        grep "^${name}[ :]" "$top/crates.txt" >>"$room/crates.txt"
        mkdir -p "$room/crates/$name"
        for part in "$top/crates/$name"/*; do
            case ${part##*/} in
                out | must-fail | wrong-bodies) ;;
                *) cp -R "$part" "$room/crates/$name/" ;;
            esac
        done
    done
}

# Whether `rt ci` keeps what it proved, crate by crate, for its next call and for other clones. A kit that does so has a word to prove anew, and
# keeps beside its own folder.
is_kept() {
    rt help 2>&1 | grep -q -e --anew || return 1
    beside=$(dirname "$(dirname "$(rt doc)")")
    [ -w "$beside" ] && [ "$(megabytes_free "$beside")" -ge "$ROOM_TO_KEEP" ]
}

# The crates that are done, by what rt said: `rt ci` names each that is proved or kept, and `rt run` each as it begins with it.
done_crates() {
    sed -n 's/^rt: \([a-z0-9_]*\) proved$/\1/p; s/^rt: \([a-z0-9_]*\) is kept: .*/\1 kept/p; s/^crate \([a-z0-9_]*\): modules.*/\1/p' "$log" |
        awk '!seen[$1]++'
}

# When each crate would be proved by the costs that are known of them, in minutes, and the last line when all would be: nothing without a schedule.
plan_of_crates() {
    if has_schedule; then
        # shellcheck disable=SC2086 # a name each
        (cd "$room" && "$top/checks/schedule" --plan $names) 2>/dev/null |
            sed -n 's|^schedule: \([a-z0-9_]*\)/proof  *[0-9.]* to  *\([0-9.]*\) minutes.*|\2 \1|p' | sort -n
    fi
}

# Whether the crates can be proved in an order of this repository's own.
has_schedule() {
    [ -x "$top/checks/schedule" ] && command -v python3 >/dev/null
}

# Tells how far the build is, after each crate. What is left is what the plan has after as many crates, at the pace so far, and never more than was
# told before.
tell_progress() {
    done_crates >"$room/done"
    [ "$(wc -l <"$room/done")" -ne "$told" ] || return 0
    told=$(($(wc -l <"$room/done")))
    # shellcheck disable=SC2086 # a name each
    line=$(awk -v seconds="$(($(date +%s) - began))" -v number="$(echo $names | wc -w)" -v before="$left" '
        FILENAME == ARGV[1] { end[++planned] = $1; next }
        { count++; last = $1; if ($2 == "kept") kept++ }
        END {
            text = count " of " number " crates are proved, the last one " last
            if (count < number && planned >= number && count > kept) {
                gone = end[count] - (kept ? end[kept] : 0)
                pace = gone > 0 ? seconds / 60 / gone : 1
                left = int((end[number] - end[count]) * (pace < 0.5 ? 0.5 : pace) + 1)
                if (before != "" && left > before)
                    left = before
                text = text "; about " left " min more"
            }
            print left " " text
        }' "$room/plan" "$room/done")
    left=${line%% *}
    say "${line#* }"
}

# Says why there is no program, and ends.
refuse_build() {
    at=$(sed -n 's/^rt: \([a-z0-9_]*\) NOT PROVED$/\1/p; s/^rt: FAILED: //p' "$log" | head -n 1)
    last=$(done_crates | sed -n '$s/ .*//; $p')
    at=${at:-what comes after ${last:-nothing}}
    if grep -q 'disk is full\|No space left' "$log"; then
        why="the disk was full while $at was proved; make room in ${TMPDIR:-/tmp}, or set TMPDIR to a folder with more"
    elif grep -q 'killed, most likely for memory' "$log" || [ "$1" -eq 137 ]; then
        why="memory was short while $at was proved; end other programs"
    else
        why="$at was not proved (rt ended with status $1)"
    fi
    cp "$log" "$crate/out/build.log"
    refuse "the program is not built: $why. What was said is in $crate/out/build.log; the next call goes on from what is proved"
}

stop_build() {
    kill "$prover" 2>/dev/null || true
    wait "$prover" 2>/dev/null || true
    say "stopped; the next call goes on from what is proved"
    exit "$1"
}

# Runs what proves, in a folder of its own, and ends it with this one.
prove_in_room() {
    cd "$room" || exit 2
    # beside the room: rt takes each file in it for a part of the repository
    TMPDIR=$room.tmp
    export TMPDIR
    trap 'kill "$running" 2>/dev/null; wait "$running"; exit 143' TERM
    if has_schedule; then
        # shellcheck disable=SC2086 # none, or --anew
        "$top/checks/schedule" ${1:-} &
        running=$!
        wait "$running" || exit
        # the verdict is that of rt ci, which takes what is proved by now
        set --
    fi
    # shellcheck disable=SC2086
    rt ci ${1:-} &
    running=$!
    wait "$running"
}

# Starts the proof of the program and of all below it, and sets `prover` and `made`, where the program will be. With a kit that keeps what it
# proved, that is in a copy, where many crates are proved at once; else in this clone, crate after crate, where out/ keeps it.
start_proof() {
    made=$proved
    if is_kept; then
        # shellcheck disable=SC2086 # a name each
        copy_crates $names
        mkdir "$room.tmp"
        # rt runs what it built as nobody.
        chmod 711 "$room"
        made=$room/crates/store_program/out/store_program
        plan_of_crates >"$room/plan"
        prove_in_room "$@" </dev/null >"$log" 2>&1 &
    else
        if [ "${1:-}" = --anew ]; then
            for name in $names; do
                rm -rf "$top/crates/$name/out/rlib" "$top/crates/$name/out/incremental" "$top/crates/$name/out/$name"*
            done
        fi
        (cd "$crate" && exec rt run -- --help) </dev/null >"$log" 2>&1 &
    fi
    prover=$!
}

# The crates of the program, and those of the library where it is wanted too.
crates_to_prove() {
    crates_of store_program
    [ -z "$is_with_library" ] || crates_of pazturrok_c
}

# Builds the library for C over what was proved, in the room or, where that is not kept, in this clone.
build_library() {
    say "the library for C is built over what is proved: some minutes"
    where=$top
    [ "$made" = "$proved" ] || where=$room
    mkdir -p "$for_c/out" || refuse "$for_c/out cannot be made, and the library is kept there"
    "$top/tools/prove_library" "$where" "$proved_library" >"$log" 2>&1 &
    prover=$!
    status=0
    wait "$prover" || status=$?
    if [ "$status" -ne 0 ]; then
        cp "$log" "$for_c/out/build.log"
        refuse "the library is not built (rt ended with status $status). What was said is in $for_c/out/build.log"
    fi
}

# Proves the program, and tells meanwhile how far it is.
prove() {
    require_rt
    take_turn building
    make_room
    free=$(megabytes_free "$room")
    [ "$free" -ge "$ROOM_TO_PROVE" ] || refuse "to prove the program takes $ROOM_TO_PROVE MB of disk, and ${TMPDIR:-/tmp} has $free: make room, or set TMPDIR to a folder with more"
    say "the proof begins now: half an hour to an hour on four processors. Stopped, it leaves what is proved by then, and the next call goes on from there"
    names=$(crates_to_prove | awk '!seen[$0]++' | tr '\n' ' ')
    log=$room/log
    : >"$room/plan"
    sum=$(sum_of_sources) commit=$(commit_of_sources)
    start_proof "$@"
    trap 'stop_build 129' HUP
    trap 'stop_build 130' INT
    trap 'stop_build 143' TERM
    told=0 left='' began=$(date +%s)
    while kill -0 "$prover" 2>/dev/null; do
        sleep 1
        tell_progress
    done
    status=0
    wait "$prover" || status=$?
    if [ "$status" -ne 0 ] || [ ! -x "$made" ]; then
        refuse_build "$status"
    fi
    [ -z "$is_with_library" ] || build_library
    [ "$made" = "$proved" ] || mv "$made" "$proved"
    keep_sources "$built_from" "$sum" "$commit"
    leave_room
    leave_turn
    took=$(($(date +%s) - began))
    say "proved and built in $((took / 60)) minutes and $((took % 60)) seconds. From now on the proved program is started; ./pazturrok install PREFIX takes it elsewhere"
}

# Whether the proved library is there, and is that of the sources.
has_library() {
    # shellcheck disable=SC2034 # sources reads it
    (sources_of=pazturrok_c && is_of_sources "$proved_library" "$for_c/out/none")
}

# Carries out `build`.
build() {
    is_anew='' is_with_library=''
    for word in "$@"; do
        case $word in
            --anew) is_anew=--anew ;;
            --library) is_with_library=1 ;;
            *) refuse "build takes no words but --anew and --library" ;;
        esac
    done
    if [ -n "$is_anew" ] || ! is_of_sources "$proved" "$built_from" || { [ -n "$is_with_library" ] && ! has_library; }; then
        # shellcheck disable=SC2086 # none, or --anew
        prove $is_anew
    fi
}
