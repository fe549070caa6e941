# shellcheck shell=sh disable=SC2154
# `show DIR --html FILE`: a store as one page that a browser shows without a server: its packages, symbols with their properties, readtables, figures,
# and the last records of its log. Nothing of the store is changed. It is a part of the script `pazturrok`, and no command.
#
# The page is world.html beside this file, with what the program tells in the place of the lines that begin with "@".

# How many records of the log the page has.
RECORDS_OF_PAGE=200

# What the second line of such a page begins with.
# shellcheck disable=SC2016 # these are no words of a shell
MARK_OF_PAGE='<!-- The page of `show DIR --html FILE`.'

# Sets `folder` and `page` to what the words name, and `may_replace`.
read_words_of_show() {
    shift
    folder='' page='' may_replace='' before=''
    for word in "$@"; do
        case $before,$word in
            --html,*) page=$word ;;
            *,--html=*) page=${word#*=} ;;
            *,--force) may_replace=1 ;;
            *,--html | *,--existing) ;;
            *,-?*) refuse "show --html knows no $word; its words are DIR --html FILE [--force]" ;;
            *)
                [ -z "$folder" ] || refuse "show --html takes one folder, and not $folder and $word"
                folder=$word
                ;;
        esac
        if [ "$before" = --html ]; then before=''; else before=$word; fi
    done
    [ -n "$folder" ] || refuse "a folder is missing: show DIR --html FILE"
    [ -n "$page" ] || refuse "a file is missing after --html"
    look_at_page
}

# Refuses a place in the folder of the store, and what is there already and is no page of this command.
look_at_page() {
    case $page in -*) page=./$page ;; esac
    [ -d "$(dirname "$page")" ] || refuse "the folder of $page is not there"
    [ ! -d "$page" ] || refuse "$page is a folder: name a file"
    # shellcheck disable=SC3013 # no standard has -ef, and each shell of Linux does
    if [ "$(dirname "$(readlink -f -- "$page")")" -ef "$folder" ]; then
        refuse "$page is in the folder of the store: name a file elsewhere"
    fi
    if [ -z "$may_replace" ] && [ -s "$page" ] && [ -f "$page" ] && ! sed -n 2p "$page" | grep -Fq "$MARK_OF_PAGE"; then
        refuse "$page is there, and is no page of this command: name another file, or give --force"
    fi
}

# Ends where there is no room for the page, or it may not be written.
leave_no_page() {
    say "$1, and no page was made"
    exit 3
}

# Puts the page in its place. A file gets it whole or stays as it was, also where the disk is full.
put_page() {
    # it has all that the store holds, so nobody else may read it, as with the files of the store
    umask 077
    if [ -e "$page" ] && [ ! -f "$page" ]; then
        cat "$room/page" >"$page" || leave_no_page "$page cannot be written"
        return
    fi
    page=$(readlink -f -- "$page")
    beside=$(mktemp "$page.XXXXXX" 2>/dev/null) || leave_no_page "no file can be made beside $page"
    trap 'rm -rf "$room" "$beside"' EXIT
    cat "$room/page" 2>/dev/null >"$beside" || leave_no_page "there is no room for $page"
    mv -f "$beside" "$page" || leave_no_page "$page cannot be replaced"
}

# What the program tells by these words goes into a file of the room; where it fails this ends as the program did.
tell_into() {
    told=$1 status=0
    shift
    "$program" "$@" >"$room/$told" || status=$?
    if [ "$status" -ne 0 ]; then
        [ "$(df -Pk "$room" | awk 'NR == 2 { print $4 }')" -gt 1024 ] || say "${TMPDIR:-/tmp} is full, in which the page is made: set TMPDIR to a folder with room"
        exit "$status"
    fi
}

show_html() {
    read_words_of_show "$@"
    lacks_store "$folder" || :
    room=$(mktemp -d "${TMPDIR:-/tmp}/pazturrok-show.XXXXXX") || exit 3
    trap 'rm -rf "$room"' EXIT
    trap 'exit 129' HUP
    trap 'exit 130' INT
    trap 'exit 143' TERM
    tell_into info info "$folder"
    tell_into world dump "$folder" --existing
    tell_into records log "$folder"
    tail -n "$RECORDS_OF_PAGE" "$room/records" >"$room/log"
    readlink -f -- "$folder" >"$room/folder"
    echo "As it was at $(date -u '+%Y-%m-%d %H:%M:%S') UTC." >"$room/made"
    [ -n "$is_proved" ] || echo "The program was $NOT_PROVED." >>"$room/made"
    while IFS= read -r line; do
        case $line in
            @*) base64 "$room/${line#@}" 2>/dev/null ;;
            *) printf '%s\n' "$line" 2>/dev/null ;;
        esac || leave_no_page "there is no room in ${TMPDIR:-/tmp}"
    done <"$parts/world.html" >"$room/page"
    put_page
}
