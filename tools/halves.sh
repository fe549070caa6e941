# shellcheck shell=sh disable=SC2154
# What can be seen of the two files of a store before the program opens them. It is a part of the script `pazturrok`, and no command.

# The first byte of an open half and of a record.
OPEN_GATE=165
# The latest version of a half that the program reads.
KNOWN_VERSION=3
# A new store has so many bytes, and one of version 3 so many; so what a crash leaves of one that never began has no more.
NEW_STORE=154 NEW_STORE_3=180
# Halves of at most so many bytes are looked at before the program is started: that takes some milliseconds.
SOON_LOOKED_AT=1048576

# The first byte of a file; nothing where it cannot be read, or has none. Nothing but a file is read: a reading of a pipe would have no end.
first_byte() {
    [ -f "$1" ] || return 0
    byte=$(od -An -v -t u1 -N 1 "$1" 2>/dev/null) || :
    echo "${byte##* }"
}

# How many bytes a half has at most in a store that never began. Of version 3 a crash may have left the number, or not yet.
most_of_new() {
    case $(od -An -v -t x1 -j 1 -N 2 "$1" 2>/dev/null) in
        ' 00 03' | ' 00 00') echo "$NEW_STORE_3" ;;
        *) echo "$NEW_STORE" ;;
    esac
}

# Whether neither half of a folder begins as that of a store, though one has more than what a crash leaves of a store that never began. Sets `longest`,
# and which it is of them. The length is looked at before the first byte: so a store that another process begins meanwhile is open once it is longer.
seem_damaged() {
    longest=0 longest_half=''
    for half in "$1/half-a" "$1/half-b"; do
        if [ -f "$half" ] && [ -s "$half" ]; then
            # what cannot be read the program itself refuses
            bytes=$( (wc -c <"$half") 2>/dev/null) || return 1
            first=$(first_byte "$half")
            if [ -z "$first" ] || [ "$first" -eq "$OPEN_GATE" ]; then return 1; fi
            if [ "$bytes" -gt "$longest" ]; then longest=$bytes longest_half=$half; fi
        fi
    done
    [ -n "$longest_half" ] && [ "$longest" -gt "$(most_of_new "$longest_half")" ]
}

# Sets `missing` and `beside` where a folder has one of the halves and not the other. A half-a without a byte is what a first start leaves.
lacks_half() {
    if [ -e "$1/half-b" ] && [ ! -e "$1/half-a" ]; then
        missing=half-a beside=half-b
    elif [ -f "$1/half-a" ] && [ -s "$1/half-a" ] && [ ! -e "$1/half-b" ]; then
        missing=half-b beside=half-a
    else
        return 1
    fi
}

# Tells that a half is missing. The program makes it anew where --existing does not stand, and cannot tell it from one that a first start did not come
# to make: so nothing is refused here. It is looked at twice, as another process may make the two just now.
tell_missing_half() {
    lacks_half "$1" || return 0
    sleep 0.2
    lacks_half "$1" || return 0
    say "$1 has $beside and no $missing: a file is missing. See \"Files that are missing\" in docs/run/operating.md; run without --existing makes it anew, and then the store may be older, or empty"
}

# Tells what to do where the program is about to say of the files of a small store that they mean no world, with its number alone.
tell_damage() {
    bytes=0
    for half in "$1/half-a" "$1/half-b"; do
        [ -f "$half" ] || return 0
        length=$( (wc -c <"$half") 2>/dev/null) || return 0
        bytes=$((bytes + length))
    done
    [ "$bytes" -le "$SOON_LOOKED_AT" ] || return 0
    case $("$program" info "$1" 2>&1 >/dev/null </dev/null) in
        '! 62 '*) say "$1: its files are damaged; keep a copy of both, and see \"Damaged files\" in docs/run/operating.md (help 62)" ;;
    esac
}

# Refuses such files: the program would take them for a store that never began, and begin a new one over them. Where a process serves the store it
# changes them, and so between two looks at them may a snapshot.
look_at_halves() {
    case $1 in
        run | snapshot | upgrade | export | dump | verify | show | info | log | backup) ;;
        *) return 0 ;;
    esac
    find_folder "$@"
    [ -n "$folder" ] || return 0
    tell_version
    tell_missing_half "$folder"
    if ! seem_damaged "$folder" || holder_of "$folder/half-a" >/dev/null; then
        tell_damage "$folder"
        return 0
    fi
    sleep 0.2
    seem_damaged "$folder" || return 0
    say "$longest_half has $longest bytes, and neither half of $folder begins as that of a store: they are damaged, or no store's. Nothing was opened, as a new store would be written over them. Keep a copy of both files and see \"Damaged files\" in docs/run/operating.md; for a new store name another folder"
    exit 3
}

# Whether there is neither half in a folder; then it is told which folder that is, with one beside it that may be meant. The program does not name it.
lacks_store() {
    if [ -e "$1/half-a" ] || [ -e "$1/half-b" ]; then return 1; fi
    if [ -d "$1" ] && [ ! -x "$1" ]; then return 1; fi
    path=${1%/} stores=''
    name=${path##*/}
    round=${path%"$name"}
    for other in "$round"*/half-a; do
        [ -e "$other" ] || continue
        other=${other%/half-a}
        stores="$stores ${other##*/}"
    done
    # shellcheck disable=SC2086 # a name each
    near=$(nearest "$name" $stores)
    told="there is no folder $1"
    if [ -d "$1" ]; then
        told="$1 has no half-a and no half-b, so it holds no store"
    elif [ -e "$path" ]; then
        told="$path is a file and no folder"
    fi
    say "$told${near:+; did you mean $round$near?}"
}

# Tells that there is no store for a command that wants one, before the program refuses it.
tell_no_store() {
    case $1,"$*", in
        run,*' --existing'[\ ,]* | snapshot,* | upgrade,* | export,* | dump,* | verify,* | show,* | info,* | log,* | backup,*) ;;
        *) return 0 ;;
    esac
    find_folder "$@"
    [ -z "$folder" ] || lacks_store "$folder" || return 0
}

# The generation and the version of an open half; nothing of another.
head_of() {
    [ -f "$1" ] || return 0
    # shellcheck disable=SC2046 # a byte each
    set -- $(od -An -v -t u1 -N 11 "$1" 2>/dev/null)
    [ "${1:-}" = "$OPEN_GATE" ] && [ $# -eq 11 ] || return 0
    version=$(($2 * 256 + $3)) number=0
    shift 3
    for byte in "$@"; do
        number=$((number * 256 + byte))
    done
    echo "$number $version"
}

# Tells that the half in use is of a later version than the program knows, before that refuses it.
tell_version() {
    latest=0 version=''
    for half in "$folder/half-a" "$folder/half-b"; do
        # shellcheck disable=SC2046 # two numbers
        set -- $(head_of "$half")
        if [ "${1:-0}" -gt "$latest" ]; then latest=$1 version=$2 in_use=$half; fi
    done
    [ "${version:-0}" -le "$KNOWN_VERSION" ] || say "$in_use is of version $version, and this program knows versions up to $KNOWN_VERSION: use a newer one"
}
