# shellcheck shell=sh disable=SC2154
# `backup DIR DEST --at N`: a new store in DEST with the world that the first N records of a half leave, so a way back to an earlier moment. DIR is only
# looked into. It is a part of the script `pazturrok`, and no command.
#
# The new store is a copy of the half that ends after that record. The program tells what world it has, and what world the first N records of the whole
# half leave: where these differ there is no new store.

# How many bytes come before the snapshot of a half, and before the text of a record.
HEAD_OF_HALF=15
HEAD_OF_RECORD=6

# Sets `folder`, `new`, `generation`, which may be empty, and `records`.
read_words_of_backup() {
    shift
    folder='' new='' at='' before=''
    for word in "$@"; do
        case $before,$word in
            --at,*) at=$word ;;
            *,--at=*) at=${word#*=} ;;
            *,--at | *,--existing) ;;
            *,-?*) refuse "backup --at knows no $word; its words are DIR DEST --at N" ;;
            *)
                [ -z "$new" ] || refuse "backup --at takes two folders, and not $folder, $new and $word"
                if [ -z "$folder" ]; then folder=$word; else new=$word; fi
                ;;
        esac
        if [ "$before" = --at ]; then before=''; else before=$word; fi
    done
    [ -n "$new" ] || refuse "two folders are wanted: backup DIR DEST --at N"
    case $at in
        '' | .* | *. | *.*.* | *[!0-9.]*) refuse "--at takes the number of a record, as 12, or with its generation, as 3.12, and not '$at'" ;;
    esac
    generation='' records=${at#*.}
    [ "$records" = "$at" ] || generation=${at%.*}
    new=${new%/}
    for place in "$new" "$new.partial"; do
        [ ! -e "$place" ] || refuse "$place is there: name another folder"
    done
}

# The generation of an open half; nothing of another.
generation_of() {
    told=$(head_of "$1")
    echo "${told% *}"
}

# Sets `half`, the half of the generation that was asked for, or the one in use.
find_half() {
    half=''
    if [ -z "$generation" ]; then
        told=$("$program" info "$folder" --files) || exit
        half=half-$(printf '%s\n' "$told" | sed -n 's/^half A$/a/p; s/^half B$/b/p')
        return
    fi
    for name in half-a half-b; do
        [ "$(generation_of "$folder/$name")" != "$generation" ] || half=$name
    done
    [ -n "$half" ] || refuse "no half of $folder is of generation $generation: log $folder --places tells that in use, and the one before it may be there too"
}

# How many bytes a half has up to the end of so many records.
length_up_to() {
    od -An -v -t u1 -w32 "$1" | awk -v wanted="$2" -v open="$OPEN_GATE" -v head="$HEAD_OF_HALF" -v more="$HEAD_OF_RECORD" '
        function takes(byte) {
            if (place < head) {
                if (place >= head - 4)
                    number = number * 256 + byte
                if (++place < head)
                    return
                place += number
            } else if (of_record == 0 && byte != open) {
                exit
            } else {
                if (of_record >= more - 4)
                    number = number * 256 + byte
                place++
                if (++of_record < more)
                    return
                place += number
                of_record = 0
                count++
            }
            number = 0
            if (count == wanted) {
                print place
                exit
            }
        }
        BEGIN { place = number = count = of_record = 0 }
        { while (place < base + NF) takes($(place - base + 1)); base += NF }'
}

# Makes the new store under another name, with a copy of the half that is cut after the record.
make_store() {
    umask 077
    mkdir "$new.partial" || exit 3
    trap 'rm -rf "$new.partial" "$room"' EXIT
    cp "$folder/$half" "$new.partial/half-a" || exit 3
    : >"$new.partial/half-b"
    "$program" dump "$new.partial" --at "$records" >"$room/wanted" || exit
    length=$(length_up_to "$new.partial/half-a" "$records")
    [ -n "$length" ] || refuse "$folder/$half has no record $records"
    { head -c "$length" "$new.partial/half-a" && printf '\000'; } >"$new.partial/cut" || exit 3
    mv "$new.partial/cut" "$new.partial/half-a" || exit 3
    "$program" dump "$new.partial" --existing >"$room/made" || exit
    cmp -s "$room/wanted" "$room/made" || refuse "the store that was made is another than $folder was after record $at: nothing is left of it"
}

back_to() {
    read_words_of_backup "$@"
    lacks_store "$folder" || :
    find_half
    room=$(mktemp -d "${TMPDIR:-/tmp}/pazturrok-back.XXXXXX") || exit 3
    trap 'rm -rf "$room"' EXIT
    trap 'exit 129' HUP
    trap 'exit 130' INT
    trap 'exit 143' TERM
    make_store
    sync "$new.partial/half-a" "$new.partial/half-b" "$new.partial" || exit 3
    mv -T "$new.partial" "$new" || exit 3
    sync "$(dirname "$new")" || exit 3
}
