# shellcheck shell=sh disable=SC2154
# Whose turn it is: who serves a store, who waits for it, and what is made known to it before a session. It is a part of the script `pazturrok`, and
# no command.

# Sets `folder`, the first word after a command that is no option and no value of one, and `place`, which of the words after the command it is.
find_folder() {
    folder='' place=0 before='' count=0
    [ $# -eq 0 ] || shift
    for word in "$@"; do
        count=$((count + 1))
        case $place,$before,$word in
            *,--snapshot-every,* | *,--snapshot-ratio,* | *,--wait,* | *,--at,* | *,--from,* | *,--package,* | *,--indicator,* | *,--like,* | *,--where,* | *,--store,* | *,--html,* | *,--sums,*) word= ;;
            *,*,-*) ;;
            0,*) folder=$word place=$count ;;
        esac
        before=$word
    done
}

# The device and the number of a file, as /proc/locks has them.
file_in_locks() {
    # shellcheck disable=SC2046 # a device and a number
    set -- $(stat -L -c '%d %i' "$1" 2>/dev/null)
    [ $# -eq 2 ] || return 1
    printf '%02x:%02x:%s\n' $((($1 >> 8 & 0xfff) | ($1 >> 32 & ~0xfff))) $((($1 & 0xff) | ($1 >> 12 & 0xfff00))) "$2"
}

# Whether a process has a file open, as far as that may be looked at.
has_open() {
    for opened in "/proc/$1/fd"/*; do
        # shellcheck disable=SC3013 # no standard has -ef, and each shell of Linux does
        [ ! "$opened" -ef "$2" ] || return 0
    done
    return 1
}

# The process that has this file locked, with the name of its program; it fails where none has, or the system does not tell. Some file systems have
# another device in /proc/locks than stat tells: there it is a process that has the file open.
holder_of() {
    file=$(file_in_locks "$1") || return 1
    locks=$(awk -v number="${file##*:}" '{ split($6, file, ":") } $2 != "->" && $5 > 0 && file[3] == number { print $5 "," $6 }' /proc/locks 2>/dev/null)
    for lock in $locks; do
        process=${lock%%,*}
        if [ "${lock#*,}" = "$file" ] || has_open "$process" "$1"; then
            name=$(readlink "/proc/$process/exe" 2>/dev/null || cat "/proc/$process/comm" 2>/dev/null || echo '?')
            echo "process $process (${name##*/})"
            return 0
        fi
    done
    return 1
}

# Tells who serves the store that is asked for, before the program says that another process has it.
tell_holder() {
    case $1,$* in
        run,* | snapshot,* | upgrade,*) ;;
        verify,*--existing* | export,*--existing* | dump,*--existing* | dump,*--at* | verify,*--json*) return 0 ;;
        verify,* | export,* | dump,*) ;;
        *) return 0 ;;
    esac
    find_folder "$@"
    if [ -n "$folder" ] && holder=$(holder_of "$folder/half-a"); then
        say "$folder is served by $holder"
    fi
}

# Hundredths of a second since the machine was started.
hundredths() {
    read -r uptime _ </proc/uptime
    echo "${uptime%.*}${uptime#*.}"
}

# How many hundredths of a second are left to wait, and the same as seconds.
hundredths_left() {
    left=$((end - $(hundredths)))
    [ "$left" -ge 0 ] || left=0
    echo "$left"
}

seconds_left() {
    left=$(hundredths_left)
    printf '%d.%02d\n' "$((left / 100))" "$((left % 100))"
}

# Waits until no other process serves the store in a folder, or `seconds` have gone. Who waits has a lock on the folder, and keeps it under this
# descriptor until the program ends: so one after the other gets the store. Before there is a store it is a lock on the folder round it, which is
# kept until there is one.
wait_for_store() {
    end=$(($(hundredths) + seconds * 100)) round=$(dirname "$1")
    if [ ! -e "$1/half-a" ] && [ -r "$round" ]; then
        exec 8<"$round"
        is_round=1
        flock -w "$(seconds_left)" 8 || return 0
    fi
    wait_in_folder "$1"
}

wait_in_folder() {
    if [ -e "$1/half-a" ] && [ -r "$1" ]; then
        exec 9<"$1" 8<&-
        is_round=
        flock -w "$(seconds_left)" 9 || return 0
        while holder_of "$1/half-a" >/dev/null && [ "$(hundredths_left)" -gt 0 ]; do
            sleep 0.05
        done
    fi
}

# Leaves the lock on the folder round a new store to a process of its own, which goes once the program serves the store, or has ended. The program,
# into which this process turns, has none of it.
leave_round() {
    (
        (
            # one that has ended, and whose parent does not know it yet, has no exe
            while [ -e "/proc/$$/exe" ] && ! holder_of "$1/half-a"; do
                sleep 0.05
            done
        ) 9<&- &
    ) </dev/null >/dev/null 2>&1
    exec 8<&-
}

# The operators whose plain names are those of other symbols of COMMON-LISP-USER, each after a space. The words are those of the next function.
# shellcheck disable=SC2086 # a word each
clashing_names() {
    sed 's/;.*//' "$operators" | tr ' ()' '\n\n\n' | sed -n 's/^PAZTURROK:://p' | awk '
        BEGIN { print "(LIST" }
        {
            found = "(PAZTURROK::FIND-SYMBOL \"" $0 "\" \"COMMON-LISP-USER\")"
            print "(PAZTURROK::AND " found " (PAZTURROK::NOT (PAZTURROK::EQL " found " (QUOTE PAZTURROK::" $0 "))) \"" $0 "\")"
        }
        END { print ")" }' | "$program" run "$1" --rescue $2 2>/dev/null | tr ' ' '\n' | sed -n 's/^(*"\(.*\)")*$/ \1/p' | tr -d '\n'
}

# Makes the functions of the package PAZTURROK known to the store in a folder, where they are not. The second word has --existing and --one-sync, as far
# as they are given. The forms are read in Rescue mode, whatever readtable and package the store has.
feed_operators() {
    operators=$top/lisp/operators.lisp
    [ -n "$is_clone" ] || operators=${top%/bin}/share/pazturrok/operators.lisp
    [ -r "$operators" ] || refuse "$operators cannot be read, and has the names of the functions"
    status=0
    # shellcheck disable=SC2086 # a word each
    lines=$("$program" run "$1" --rescue --quiet $2 <"$operators" 2>&1) || status=$?
    if [ "$status" -ne 0 ]; then
        tell_no_store run "$1" "$2"
        tell_holder run "$1"
        printf '%s\n' "$lines" | sed '/^answers [0-9]* refusals [0-9]*$/d' >&2
        exit "$status"
    fi
    printf '%s\n' "$lines" | while read -r line; do
        case $line in
            '! 35 '*) ;;
            '! 37 '*) say "not all plain names of the operators are known to $1, as a symbol of such a name is there already (${line#! }):$(clashing_names "$1" "$2"). Write an operator with its package, as PAZTURROK::CAR, or import those that do not clash, as with (IMPORT 'PAZTURROK::CAR)" ;;
            '! '*) say "the plain names of the functions were not made known to $1: ${line#! }" ;;
        esac
    done
}

# Refuses what is no number of seconds.
look_at_seconds() {
    case $seconds in
        '' | *[!0-9]* | ??????????*) refuse "--wait takes a number of seconds, as in run DIR --wait 10, and not '$seconds'" ;;
    esac
    command -v flock >/dev/null || refuse "--wait takes the command flock, of util-linux, and it is not found"
    # a shell takes a number that begins with 0 to be in base 8
    seconds=$(printf '%s' "$seconds" | sed 's/^0*//')
    seconds=${seconds:-0}
}

# Does what the words of `run` ask for that are the script's, and starts the program without them. Where the time was not enough the program says so.
start_session() {
    find_folder "$@"
    seconds='' is_waiting='' is_round='' has_operators='' words='' is_end='' before=''
    for word in "$@"; do
        shift
        case $is_end:$before,$word in
            end:*) set -- "$@" "$word" ;;
            :--wait,*) seconds=$word ;;
            *,--wait=*) seconds=${word#*=} is_waiting=1 ;;
            *,--wait) is_waiting=1 ;;
            *,--operators) has_operators=1 ;;
            *) set -- "$@" "$word" ;;
        esac
        case $is_end$word in
            --) is_end=end ;;
            --existing | --one-sync) words="$words $word" ;;
        esac
        before=$word
    done
    [ -n "$is_clone" ] || try_words "$@"
    if [ -n "$is_waiting" ]; then
        look_at_seconds
        [ -z "$folder" ] || wait_for_store "$folder"
    fi
    if [ -n "$has_operators" ] && [ -n "$folder" ] && { [ -n "$is_end" ] || "$program" "$@" --help >/dev/null 2>&1; }; then
        feed_operators "$folder" "$words"
        # who waits for a new store has the lock on the folder round it until now
        [ -z "$is_round" ] || wait_in_folder "$folder"
    fi
    [ -z "$is_round" ] || leave_round "$folder"
    tell_no_store "$@"
    tell_holder "$@"
    name_pages "$@"
    edit_lines "$@"
    exec "$program" "$@"
}

# Whether the words are those of a session for which the script does something.
has_own_words() {
    [ "$1" = run ] || return 1
    for word in "$@"; do
        case $word in
            --) return 1 ;;
            --operators | --wait | --wait=*) return 0 ;;
        esac
    done
    return 1
}
