# shellcheck shell=sh disable=SC2154
# `verify DIR --sums FILE`: what `verify` tells; and whether the bytes that the halves had when FILE was written are still there, byte by byte. Then FILE
# gets the sums of what the halves have now. DIR is only looked into. It is a part of the script `pazturrok`, and no command.
#
# A half that is in use only gets longer, and the other one stays as it is until a snapshot begins it anew. So what differs was changed by no program of
# this store. FILE has a line for each half: its generation, how many bytes, and their sum.

# What the first line of FILE is, of whatever store.
MARK_OF_SUMS="# sums of the halves of a store, written by pazturrok verify --sums"

# Sets `folder` and `sums`.
read_words_of_sums() {
    shift
    folder='' sums='' before=''
    for word in "$@"; do
        case $before,$word in
            --sums,*) sums=$word ;;
            *,--sums=*) sums=${word#*=} ;;
            *,--sums | *,--existing) ;;
            *,-?*) refuse "verify --sums knows no $word; its words are DIR --sums FILE" ;;
            *)
                [ -z "$folder" ] || refuse "verify --sums takes one folder, and not $folder and $word"
                folder=$word
                ;;
        esac
        if [ "$before" = --sums ]; then before=''; else before=$word; fi
    done
    [ -n "$folder" ] || refuse "a folder is missing: verify DIR --sums FILE"
    [ -n "$sums" ] || refuse "a file is missing after --sums"
    case $sums in -*) sums=./$sums ;; esac
}

# Refuses a place in the folder of the store, and what is there already and has no sums.
look_at_sums() {
    [ -d "$(dirname "$sums")" ] || refuse "the folder of $sums is not there"
    # shellcheck disable=SC3013 # no standard has -ef, and each shell of Linux does
    if [ "$(dirname "$(readlink -f -- "$sums")")" -ef "$folder" ]; then
        refuse "$sums is in the folder of the store: name a file elsewhere"
    fi
    [ -e "$sums" ] || return 0
    if [ ! -f "$sums" ] || [ "$(sed -n 1p "$sums")" != "$MARK_OF_SUMS" ]; then
        refuse "$sums is there, and has no sums of this command: name another file"
    fi
}

# The sum of so many first bytes of a file.
sum_of() {
    head -c "$2" "$1" | sha256sum | cut -d ' ' -f 1
}

# The half that is of a generation; nothing where none is.
half_of() {
    for name in half-a half-b; do
        [ "$(generation_of "$folder/$name")" != "$1" ] || echo "$folder/$name"
    done
}

# Ends, as bytes differ. FILE keeps its sums.
end_as_damaged() {
    say "$1. \"Damaged files\" in docs/run/operating.md says what to do; $sums is left as it was"
    exit 3
}

# Compares a half with what it was. The words are its generation, how many bytes, and their sum.
compare_half() {
    half=$(half_of "$1")
    if [ -z "$half" ]; then
        # it is begun anew by a snapshot, but for the one in use
        [ "$1" -lt "$generation" ] || end_as_damaged "$sums has generation $1, and the newest half of $folder is of generation $generation: the newer one is damaged, or an older store was put there"
        return 0
    fi
    if [ "$(wc -c <"$half")" -ge "$2" ]; then now=$(sum_of "$half" "$2"); else now=shorter; fi
    # a snapshot may have begun it anew meanwhile
    [ "$(half_of "$1")" = "$half" ] || return 0
    [ "$now" = "$3" ] || end_as_damaged "of the first $2 bytes of $half some are not what they were when $sums was written"
    echo "same generation $1 bytes $2"
}

compare_halves() {
    [ -f "$sums" ] || return 0
    while read -r first was_generation second was_bytes third was_sum; do
        case $first,$second,$third in
            generation,bytes,sha256) compare_half "$was_generation" "$was_bytes" "$was_sum" ;;
        esac
    done <"$sums"
}

# A line for a half, of so many bytes. It fails where a snapshot began it anew meanwhile.
tell_sum() {
    half=$(half_of "$1")
    [ -n "$half" ] || return 1
    sum=$(sum_of "$half" "$2")
    [ "$(half_of "$1")" = "$half" ] || return 1
    echo "generation $1 bytes $2 sha256 $sum"
}

# The lines for both halves. What follows the last record of the half in use is the place of the next one.
tell_sums() {
    echo "$MARK_OF_SUMS"
    tell_sum "$generation" "$((bytes - 1))" || return 1
    for name in half-a half-b; do
        other=$(generation_of "$folder/$name")
        case $other in '' | "$generation") continue ;; esac
        # a newer one is in use by now
        [ "$other" -gt "$generation" ] || tell_sum "$other" "$(wc -c <"$folder/$name")" || :
    done
}

# Writes the new sums, which get into FILE whole or not at all.
write_sums() {
    umask 077
    place=$(readlink -f -- "$sums")
    beside=$(mktemp "$place.XXXXXX" 2>/dev/null) || leave_no_sums
    trap 'rm -f "$beside"' EXIT
    if ! tell_sums >"$beside"; then
        say "a snapshot was taken meanwhile, so $sums has no new sums: call it again"
        return
    fi
    [ "$(tail -c 1 "$beside" | wc -l)" -eq 1 ] || leave_no_sums
    mv -f "$beside" "$place" || leave_no_sums
}

leave_no_sums() {
    say "$sums cannot be written, so it has no new sums"
    exit 3
}

compare_sums() {
    read_words_of_sums "$@"
    # shellcheck source=tools/back_to.sh
    . "$parts/back_to.sh"
    look_at_sums
    lacks_store "$folder" || :
    status=0
    "$program" verify "$folder" --existing || status=$?
    [ "$status" -eq 0 ] || exit "$status"
    told=$("$program" info "$folder" --files) || exit
    generation=$(printf '%s\n' "$told" | sed -n 's/^generation //p')
    bytes=$(printf '%s\n' "$told" | sed -n 's/^bytes //p')
    compare_halves
    write_sums
}
