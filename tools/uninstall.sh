# shellcheck shell=sh
# Takes away what `install` and `release` put below a prefix. It is a part of the script `pazturrok`, and no command.

# The list of what was put there, below the prefix: of each file its sum and its name, and of each folder that was made a hyphen and its name.
INSTALLED=share/pazturrok/installed

# The names in the list at the front of which a pattern stands.
names_of() {
    sed -n "s/^$1  //p" "$list"
}

# Refuses a prefix with no list, or with one that names anything else than what is below it.
look_at_list() {
    [ -d "$prefix" ] || refuse "$prefix is no folder"
    list=$prefix/$INSTALLED
    if [ ! -f "$list" ]; then
        refuse "there is no $list, so it is not known what was installed below $prefix; an older pazturrok kept no such list: install it once more there, with all that was installed, and then uninstall it"
    fi
    if ! [ -s "$list" ] || grep -Evq '^([0-9a-f]{64}|-)  [^/]' "$list" || names_of '[^ ]*' | grep -Eq '(^|/)\.\.(/|$)'; then
        refuse "$list is not what install wrote: nothing was taken away"
    fi
}

# Refuses what cannot be taken away whole: while a program of it runs, or where a folder of it may not be written.
look_at_use() {
    for name in store_program compiled_program; do
        for exe in /proc/[0-9]*/exe; do
            # shellcheck disable=SC3013 # no standard has -ef, and each shell of Linux does
            if [ "$exe" -ef "$prefix/libexec/pazturrok/$name" ]; then
                exe=${exe%/exe}
                refuse "process ${exe#/proc/} runs the program of $prefix: end it first, or its unit; nothing was taken away"
            fi
        done
    done
    names_of '[0-9a-f]*' | sed -n 's|/[^/]*$||p' | sort -u | while IFS= read -r name; do
        if [ -d "$prefix/$name" ] && [ ! -w "$prefix/$name" ]; then
            refuse "$prefix/$name cannot be written: nothing was taken away"
        fi
    done
}

# Takes away each file that is as it was put there, with what Python made of it. One that was changed since is left.
take_files() {
    verdicts=$(cd "$prefix" && sed '/^-/d' "$INSTALLED" | LC_ALL=C sha256sum -c 2>/dev/null) || true
    taken=0
    while IFS= read -r verdict; do
        name=${verdict%: *}
        case $verdict in
            *': OK')
                rm -f "$prefix/$name" || refuse "$prefix/$name cannot be taken away"
                taken=$((taken + 1))
                ;;
            *': FAILED') say "$prefix/$name is left, as it was changed since" ;;
        esac
        case $name in
            *.py)
                module=${name##*/}
                rm -f "$prefix/${name%/*}/__pycache__/${module%.py}".*.pyc
                rmdir "$prefix/${name%/*}/__pycache__" 2>/dev/null || true
                ;;
        esac
    done <<END_OF_VERDICTS
$verdicts
END_OF_VERDICTS
}

# Takes away the folders that install made, the inner ones first, and the list between them, as it stands in one. A folder with anything else in it
# is left.
take_folders() {
    folders=$(names_of - | LC_ALL=C sort -r)
    rm -f "$list"
    while IFS= read -r name; do
        if [ -d "$prefix/$name" ] && ! rmdir "$(cd "$prefix/$name" && pwd)" 2>/dev/null; then
            left=$(find "$prefix/$name" -mindepth 1 -maxdepth 1 2>/dev/null | head -n 1)
            case $name in *pazturrok*) say "$prefix/$name is left, as it has ${left##*/}" ;; esac
        fi
    done <<END_OF_FOLDERS
$folders
END_OF_FOLDERS
}

# Carries out `uninstall`.
uninstall() {
    case $#,${1:-} in
        1,-h | 1,--help)
            echo "uninstall PREFIX takes away what install put below a prefix, as in pazturrok uninstall /usr/local. What was changed since is left, and a store is never touched"
            exit
            ;;
        1,[!-]*) ;;
        *) refuse "uninstall takes a folder, as in pazturrok uninstall /usr/local" ;;
    esac
    prefix=$1
    look_at_list
    (look_at_use) || exit
    take_files
    take_folders
    echo "$taken files are taken away from $prefix"
}
