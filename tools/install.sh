# shellcheck shell=sh disable=SC2154
# Puts the program of a clone elsewhere: below a prefix, or into one file. It is a part of the script `pazturrok`, and no command.

# shellcheck source=tools/uninstall.sh
. "$top/tools/uninstall.sh"

# Makes a folder below the prefix, and those round it. Those that it makes are noted for the list, and those that have the name.
make_folder() {
    [ "$1" != "$prefix" ] || return 0
    make_folder "${1%/*}"
    if [ ! -d "$1" ]; then
        mkdir "$1" || refuse "$1 cannot be made"
        echo "-  ${1#"$prefix"/}" >>"$room/folders"
    else
        case ${1#"$prefix"/} in *pazturrok*) echo "-  ${1#"$prefix"/}" >>"$room/folders" ;; esac
    fi
}

# Notes a file for the list.
note() {
    echo "${1#"$prefix"/}" >>"$room/files"
}

# Writes the list of what was put below the prefix, by this call and by those before it.
keep_list() {
    (cd "$prefix" && xargs -d '\n' sha256sum <"$room/files") >"$room/new-list" || refuse "what was put below $prefix cannot be read"
    LC_ALL=C sort -u "$room/folders" >>"$room/new-list"
    [ ! -f "$prefix/$INSTALLED" ] || cat "$prefix/$INSTALLED" >>"$room/new-list"
    awk '{ name = substr($0, index($0, "  ") + 2) } !seen[name]++' "$room/new-list" >"$room/list"
    put "$room/list" "$prefix/$INSTALLED" 644 >/dev/null
}

# Puts a file there under its name at once, so that a program that runs goes on with the old one.
put() {
    if ! { cp "$1" "$2.new" && chmod "$3" "$2.new" && mv -f "$2.new" "$2"; }; then
        refuse "$2 cannot be written"
    fi
    note "$2"
    echo "$2"
}

# Puts the files there that match, each under its own name. The first word is the folder.
put_all() {
    folder=$1
    shift
    make_folder "$folder"
    for file in "$@"; do
        put "$file" "$folder/${file##*/}" 644
    done
}

# The help of the program, or of a command of it, as an installed one gives it.
help_of() {
    # shellcheck disable=SC2034 # text_of_help reads it
    (is_clone='' && text_of_help "$@" --help)
}

# A text as it stands, for a manual page.
as_it_stands() {
    echo '.nf'
    sed "s/\\\\/\\\\e/g; s/-/\\\\-/g; s/'/\\\\(aq/g; s/\`/\\\\(ga/g; s/\\^/\\\\(ha/g; s/~/\\\\(ti/g; s/^\\./\\\\\\&./"
    echo '.fi'
}

# The manual page, from the texts of the help.
manual() {
    echo ".TH PAZTURROK 1 \"\" \"$("$program" --version)\""
    echo '.SH NAME'
    printf 'pazturrok \\- %s\n' "$(help_of | sed -n 1p)"
    echo '.SH SYNOPSIS'
    help_of | sed -n '/^Usage: /,/^$/ { s/^Usage: //; s/^  *//; p; }' | as_it_stands
    echo '.SH DESCRIPTION'
    help_of | sed -n '/^Commands:/,$p' | as_it_stands
    echo '.SH COMMANDS'
    for command in $(help_of | sed -n '/^Commands:/,/^$/ s/^  \([a-z][a-z-]*\) .*/\1/p'); do
        if [ "$command" != help ]; then
            echo ".SS $command"
            help_of "$command" | as_it_stands
        fi
        if [ "$command" = run ]; then
            echo '.SS run \-\-messages'
            help_of run DIR --messages | as_it_stands
        fi
    done
    echo '.SH ENVIRONMENT'
    echo '.TP'
    echo '.B PAZTURROK_MEMORY'
    echo 'How much memory the program may take: a number of kilobytes, or one with K, M or G after it. Without it, what the machine has.'
}

# What is installed, and under which licence.
origin() {
    if knows_sources "$program" "$made_from"; then
        sed -n '/^commit: /p; s/^sources: /sha256 of the sources: /p' "$made_from"
    else
        echo "commit: $(commit_of_sources), if the program was built from it; its build kept no word"
    fi
    if [ "$(sed -n 's/^commit: //p' "$made_from" 2>/dev/null)" != "$(commit_of_sources)" ]; then
        echo "the pages and the script are of: $(commit_of_sources)"
    fi
    if [ -n "$is_proved" ]; then
        echo "proved with: $(rt version 2>/dev/null || echo unknown)"
    else
        echo "$NOT_PROVED: compiled with $(rt version 2>/dev/null || echo unknown)"
    fi
    echo "sha256 of ${program##*/}: $(sha256sum "$program" | cut -d ' ' -f 1)"
    echo "licence: $(sed -n '/^## Licence$/,$ { /^## /d; /^$/d; s/ (\[[^]]*\]([^)]*))//; p; }' "$top/CONTRIBUTING.md")"
}

# Puts the program there, and what belongs to its command.
install_program() {
    for place in bin libexec/pazturrok share/man/man1 share/man/man7 share/doc/pazturrok share/bash-completion/completions; do
        make_folder "$prefix/$place"
    done
    manual >"$room/manual"
    ask_pages all >"$room/pages"
    (cd "$top/docs" && awk -v asked=manual -f "$top/tools/pages.awk" use/operators.md use/refusals.md run/operating.md) >"$room/forms"
    # one that is installed has no words of a clone
    sed 's/ compile build install release / /' "$top/completions/pazturrok.bash" >"$room/completions"
    origin >"$room/origin"
    put "$program" "$prefix/libexec/pazturrok/${program##*/}" 755
    # of two programs there the proved one would be started
    for other in store_program compiled_program; do
        [ "$other" = "${program##*/}" ] || rm -f "$prefix/libexec/pazturrok/$other"
    done
    put "$top/pazturrok" "$prefix/bin/pazturrok" 755
    put_all "$prefix/libexec/pazturrok" "$top/tools/pages.awk" "$top/tools/turns.sh" "$top/tools/words.sh" "$top/tools/lines.py" \
        "$top/tools/check_run.sh" "$top/tools/show_html.sh" "$top/tools/world.html" "$top/tools/back_to.sh" "$top/tools/follow_log.sh" \
        "$top/tools/halves.sh" "$top/tools/show_values.sh" "$top/tools/json_values.awk" "$top/tools/show_where.sh" "$top/tools/where.awk" \
        "$top/tools/compare_sums.sh" "$top/tools/uninstall.sh"
    put_all "$prefix/share/pazturrok" "$top/lisp/operators.lisp" "$top/lisp/load-export.lisp"
    put "$room/pages" "$prefix/share/pazturrok/pages.txt" 644
    put "$room/manual" "$prefix/share/man/man1/pazturrok.1" 644
    put "$room/forms" "$prefix/share/man/man7/pazturrok-forms.7" 644
    put "$room/completions" "$prefix/share/bash-completion/completions/pazturrok" 644
    put "$room/origin" "$prefix/share/doc/pazturrok/ORIGIN" 644
    put_pages
}

# Puts the pages there, also those that they lead to beside the sources.
put_pages() {
    for page in $(cd "$top" && find README.md CONTRIBUTING.md CHANGELOG.md docs clients/*/README.md clients/python/examples/*.py cluster/README.md -type f); do
        page_there=$prefix/share/doc/pazturrok/$page
        make_folder "${page_there%/*}"
        put "$top/$page" "$page_there" 644 >/dev/null
    done
}

# Puts the clients, the node and its units there. The first word is the prefix that the units name.
install_clients() {
    put_all "$prefix/share/pazturrok/python" "$top/clients/python/README.md" "$top/clients/python/pyproject.toml"
    put_all "$prefix/share/pazturrok/python/src/pazturrok" "$top"/clients/python/src/pazturrok/*.py "$top/clients/python/src/pazturrok/py.typed"
    put_all "$prefix/share/common-lisp/source/pazturrok-client" "$top"/clients/lisp/*.lisp "$top"/clients/lisp/*.asd "$top/clients/lisp/README.md"
    put_all "$prefix/lib/pazturrok/cluster" "$top/cluster/README.md"
    put_all "$prefix/lib/pazturrok/cluster/pazturrok_node" "$top"/cluster/pazturrok_node/*.py
    put "$top/cluster/pazturrok-node" "$prefix/lib/pazturrok/cluster/pazturrok-node" 755
    put "$top/cluster/certificates" "$prefix/lib/pazturrok/cluster/certificates" 755
    ln -sf ../lib/pazturrok/cluster/pazturrok-node "$prefix/bin/pazturrok-node" || refuse "$prefix/bin/pazturrok-node cannot be made"
    note "$prefix/bin/pazturrok-node"
    mkdir "$room/units"
    for unit in "$top"/cluster/systemd/*; do
        sed "s|/usr/local/|$1/|g" "$unit" >"$room/units/${unit##*/}"
    done
    put_all "$prefix/lib/systemd/system" "$room"/units/*.service
    put_all "$prefix/share/pazturrok" "$room/units/pazturrok.env"
}

# Puts the library for C there, if it is built, or beside a program that is compiled and not proved one of its kind. The first word is the prefix that
# its file for pkg-config names.
install_library() {
    engine=$proved_library word=build
    [ -n "$is_proved" ] || engine=$compiled_library word=compile
    if [ ! -f "$engine" ]; then
        say "the library for C is left out, as it is not there; ./pazturrok $word --library makes it"
        return
    fi
    make_folder "$prefix/include"
    make_folder "$prefix/lib/pkgconfig"
    if ! make -s -C "$top/clients/c" install OUT="$room/c" PREFIX="$prefix" ENGINE="$engine" >"$room/make" 2>&1; then
        refuse "the library for C was not made: $(tail -n 3 "$room/make")"
    else
        sed "s|^prefix=.*|prefix=$1|" "$prefix/lib/pkgconfig/pazturrok.pc" >"$room/pc"
        put "$room/pc" "$prefix/lib/pkgconfig/pazturrok.pc" 644
        [ -n "$is_proved" ] || echo "the library for C: $NOT_PROVED" >>"$prefix/share/doc/pazturrok/ORIGIN"
        for name in include/pazturrok.h include/pazturrok_link.h lib/libpazturrok.a lib/libpazturrok.so lib/libpazturrok_link.a; do
            note "$prefix/$name"
            echo "$prefix/$name"
        done
    fi
}

# Sets `program`, which is compiled first if there is none.
need_program() {
    choose_program
    if [ -z "$program" ]; then
        compile_program
        choose_program
    fi
    [ -n "$is_proved" ] || say "the program is $NOT_PROVED, and will say so at each start; ./pazturrok build proves it"
    [ -z "$is_older" ] || say "$OTHER_SOURCES"
}

# What the program is, and of which commit.
told_program() {
    kind="the proved program"
    [ -n "$is_proved" ] || kind="a program that is $NOT_PROVED,"
    if knows_sources "$program" "$made_from"; then
        echo "$kind of commit $(sed -n 's/^commit: //p' "$made_from")"
    else
        echo "$kind whose commit is not known"
    fi
}

# Refuses to put another program than the proved one of the sources in place of a proved one, unless that is asked for.
keep_proved() {
    if [ -n "$replace" ] || [ ! -f "$prefix/libexec/pazturrok/${proved##*/}" ]; then
        return 0
    fi
    choose_program
    if [ -z "$program" ]; then
        have="this clone has none"
    elif [ -z "$is_proved" ]; then
        have="that of this clone is $NOT_PROVED"
    elif [ -n "$is_older" ]; then
        have="that of this clone is of other sources than those of the clone"
    else
        return 0
    fi
    refuse "$prefix has a proved program, and $have: ./pazturrok build makes one; install $prefix --replace goes without"
}

# Carries out `install`.
install() {
    all='' prefix='' replace=''
    for word in "$@"; do
        case $word in
            --all) all=1 ;;
            --replace) replace=1 ;;
            '' | -*) refuse "install takes a folder, as in ./pazturrok install /usr/local, and not '$word'" ;;
            *)
                [ -z "$prefix" ] || refuse "install takes one folder, as in ./pazturrok install /usr/local"
                prefix=$word
                ;;
        esac
    done
    [ -n "$prefix" ] || refuse "install takes a folder, as in ./pazturrok install /usr/local"
    case $prefix in /*) ;; *) prefix=$(pwd)/$prefix ;; esac
    prefix=${prefix%/}
    keep_proved
    is_new=
    [ -d "$prefix/" ] || is_new=1
    mkdir -p "$prefix/" || refuse "$prefix cannot be made"
    need_program
    say "installing $(told_program)"
    make_room
    [ -z "$is_new" ] || echo "-  ." >"$room/folders"
    install_program
    if [ -n "$all" ]; then
        install_clients "$prefix"
        install_library "$prefix"
    fi
    keep_list
    leave_room
}

# What stands at the top of a release.
front_page() {
    echo "Pazturrok: a store for Lisp data. This program is $([ -n "$is_proved" ] && echo proved || echo "$NOT_PROVED")."
    cat <<'END'

  bin/pazturrok run store      serves a store in the folder `store`; bin/pazturrok --help tells the rest
  sha256sum -c SHA256SUMS      tells whether each file is as it was packed

It runs where it lies on x86-64 Linux with glibc. The command wants sh, sed, awk, grep and the coreutils too, and the node and the client for Python want
Python 3.9. ORIGIN in share/doc/pazturrok has what it was made from, and README.md there what it is. The units of systemd in lib/systemd/system, and lib/pkgconfig/pazturrok.pc, name /usr/local: copy bin, include, lib, libexec and
share there, or change that name.
END
}

# Packs a folder of the room into a file. The same files are the same bytes, whoever packs them, and when.
pack() {
    when=$(git -C "$top" log -1 --format=%ct 2>/dev/null || echo 0)
    (cd "$room" && tar --sort=name --owner=0 --group=0 --numeric-owner --mode=u+rwX,go+rX,go-w --mtime="@$when" -cf "$room/packed" "$1") &&
        gzip -9n <"$room/packed" >"$2.new" && mv -f "$2.new" "$2"
}

# Carries out `release`: all that `install --all` puts below a prefix, with sums, in one file.
release() {
    case $#,${1:-} in
        0, | 1,[!-]*) ;;
        *) refuse "release takes the name of the file that it makes, as in ./pazturrok release pazturrok.tar.gz" ;;
    esac
    need_program
    make_room
    version=$("$program" --version | sed 's/^pazturrok \([0-9.]*\).*/\1/')
    release_name=pazturrok-$version-$(commit_of_sources | sed 's/^\(.\{12\}\)[0-9a-f]*/\1/')
    [ -n "$is_proved" ] || release_name=$release_name-not-proved
    release_file=${1:-$release_name.tar.gz}
    prefix=$room/$release_name
    mkdir "$prefix"
    install_program >/dev/null
    install_clients /usr/local >/dev/null
    install_library /usr/local >/dev/null
    # what is copied from here into a folder of the system is to leave its own folders there
    sed -i '/pazturrok/!d' "$room/folders"
    keep_list
    front_page >"$prefix/README"
    (cd "$prefix" && find . -type f | LC_ALL=C sort | sed 's|^\./||' | xargs sha256sum) >"$room/sums"
    mv "$room/sums" "$prefix/SHA256SUMS"
    pack "$release_name" "$release_file" || refuse "$release_file cannot be written"
    leave_room
    sha256sum "$release_file"
}
