# shellcheck shell=sh disable=SC2154
# `log DIR --follow`: the records of the log, and then each one that comes to it, until it is stopped. DIR is only looked into, so a process may serve
# the store meanwhile. It is a part of the script `pazturrok`, and no command.

# Seconds between two looks at the files.
PAUSE=1

# Sets `folder`, `seen_generation`, which may be empty, `seen`, the number of the last record that is not wanted, and the words of `log`.
read_words_of_follow() {
    shift
    folder='' from='' before='' log_words=''
    for word in "$@"; do
        case $before,$word in
            --from,*) from=$word ;;
            *,--from=*) from=${word#*=} ;;
            *,--from | *,--follow | *,--existing) ;;
            *,--json | *,--places) log_words="$log_words $word" ;;
            *,-?*) refuse "log --follow knows no $word; its words are DIR, --from N, --places and --json" ;;
            *)
                [ -z "$folder" ] || refuse "log --follow takes one folder, and not $folder and $word"
                folder=$word
                ;;
        esac
        if [ "$before" = --from ]; then before=''; else before=$word; fi
    done
    [ -n "$folder" ] || refuse "a folder is wanted: log DIR --follow"
    [ "$before" != --from ] || refuse "--from takes the number of a record, as 12, or with its generation, as 3.12"
    seen_generation='' seen=0
    [ -n "$from" ] || return 0
    case $from in
        *[!0-9.]* | .* | *. | *.*.* | 0 | *.0) refuse "--from takes the number of a record, as 12, or with its generation, as 3.12, and not '$from'" ;;
    esac
    seen=$((${from#*.} - 1))
    [ "${from#*.}" = "$from" ] || seen_generation=${from%.*}
}

# Sets `generation` and `records` of the half in use; it fails while a look is refused.
count_records() {
    told=$("$program" info "$folder" --files 2>"$room/refused") || return 1
    generation=$(printf '%s\n' "$told" | sed -n 's/^generation //p')
    records=$(printf '%s\n' "$told" | sed -n 's/^records //p')
}

# Writes the records of a folder's half in use that come after those which were seen, and counts them as seen.
write_new_records() {
    written=0
    # shellcheck disable=SC2086 # a word each
    "$program" log "$1" $log_words --from "$((seen + 1))" 2>"$room/refused" \
        | awk -v room="$room" '{ print; count++ } END { print count + 0 >(room "/count") }' || written=$?
    # who reads may go, as head does
    case $written in 0) ;; 2 | 141) exit 0 ;; *) exit 3 ;; esac
    seen=$((seen + $(cat "$room/count")))
}

# Writes what the half before the one in use has behind the records that were seen, from a copy of it. Where that half is not the one which was
# seen, some records are in no file any more.
write_rest_of_older_half() {
    for name in half-a half-b; do
        older=$(generation_of "$folder/$name")
        case $older in '' | "$generation") continue ;; esac
        [ "$older" = "$seen_generation" ] || seen=0
        rm -rf "$room/older" && mkdir "$room/older" && cp "$folder/$name" "$room/older/half-a" && : >"$room/older/half-b" || exit 3
        # a snapshot may have begun it anew meanwhile
        [ "$(generation_of "$room/older/half-a")" = "$older" ] || continue
        found=$("$program" info "$room/older" --files 2>/dev/null | sed -n 's/^records //p')
        if [ "$older" != "$seen_generation" ]; then
            say "records after $seen_generation.$last_seen are in no file any more: snapshots were taken faster than the log was looked at"
        fi
        [ "${found:-0}" -le "$seen" ] || write_new_records "$room/older"
        return
    done
    say "records after $seen_generation.$last_seen are in no file any more: there is one half alone"
}

# What tells whether the files have changed.
state_of_halves() {
    stat -c '%s %Y %Z' "$folder/half-a" "$folder/half-b" 2>/dev/null || :
}

follow_log() {
    read_words_of_follow "$@"
    # shellcheck source=tools/back_to.sh
    . "$parts/back_to.sh"
    room=$(mktemp -d "${TMPDIR:-/tmp}/pazturrok-follow.XXXXXX") || exit 3
    trap 'rm -rf "$room"' EXIT
    trap 'exit 129' HUP
    trap 'exit 130' INT
    trap 'exit 143' TERM
    status=0
    lacks_store "$folder" || :
    "$program" info "$folder" --files >/dev/null || status=$?
    [ "$status" -eq 0 ] || exit "$status"
    was=never
    while :; do
        now=$(state_of_halves)
        if [ "$now" != "$was" ] && count_records; then
            : "${seen_generation:=$generation}"
            last_seen=$seen
            if [ "$seen_generation" != "$generation" ]; then
                write_rest_of_older_half
                seen_generation=$generation seen=0
            fi
            # a snapshot that comes between two looks is met by the next one
            [ "$records" -le "$seen" ] || write_new_records "$folder"
            was=$now
        fi
        sleep "$PAUSE"
    done
}
