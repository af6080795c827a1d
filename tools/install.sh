# shellcheck shell=bash
# Puts the program and what belongs to it under a folder, takes it away again, and packs it, for
# ./anyk and the installed command. share/anyk/SHA256SUMS under the folder has each file that was
# put there, and share/anyk/folders each folder that was made for them.

# What is in tools/, and of use in a checkout alone.
OF_CHECKOUT=" build.py current.pl edits.py gate_times.py gate_times.tsv installed.sh "
OF_CHECKOUT+="proof_costs.py release.py release.sh "

# install_under TOP PROGRAM FOLDER ABOUT: returns status 1, after the line of what failed, if a
# file cannot be put there. ABOUT is what the installed command says of its version.
install_under() {
    local files=() folders=() before=''
    # Whoever may come to the folder may use what is there.
    umask 022
    [ ! -f "$3/share/anyk/SHA256SUMS" ] || before=$(< "$3/share/anyk/SHA256SUMS")
    if put_all "$@" && put_lists "$3" && remove_others "$3" "$before"; then
        echo "anyk: installed as $3/bin/anyk"
    else
        echo "anyk: not all of it could be put under $3" >&2
        return 1
    fi
}

# put_all TOP PROGRAM FOLDER ABOUT: the command comes last, so that it never lacks what it calls.
# It needs the variables of install_under.
put_all() {
    local top=$1 tools=$1/tools to=$3 tool
    put 755 "$2" "$to/libexec/anyk/anyk_cli" || return 1
    for tool in "$tools"/*.*; do
        case $OF_CHECKOUT in
            *" ${tool##*/} "*) ;;
            *) put 644 "$tool" "$to/share/anyk/${tool##*/}" || return 1 ;;
        esac
    done
    put_folder "$tools/help" "$to/share/anyk/help" &&
        put 644 <(printf '%s\n' "$4") "$to/share/anyk/VERSION" &&
        put 644 "$top/LICENSE" "$to/share/doc/anyk/LICENSE" &&
        put_pages "$top/docs" "$to/share/doc/anyk" &&
        put_folder "$top/docs/using" "$to/share/doc/anyk/using" &&
        put 644 "$top/man/anyk.1" "$to/share/man/man1/anyk.1" &&
        put 644 "$tools/completions/anyk.bash" "$to/share/bash-completion/completions/anyk" &&
        put 644 "$tools/completions/_anyk" "$to/share/zsh/site-functions/_anyk" &&
        put 644 "$tools/completions/anyk.fish" "$to/share/fish/vendor_completions.d/anyk.fish" &&
        put 755 "$tools/installed.sh" "$to/bin/anyk"
}

# put_pages FOLDER TO: the pages for users.
put_pages() {
    local page
    for page in TUTORIAL REFERENCE COOKBOOK MESSAGES SECURITY; do
        put 644 <(page_of "$1/$page.md") "$2/$page.md" || return 1
    done
}

# put_folder FOLDER TO: each file of a folder.
put_folder() {
    local file
    for file in "$1"/*; do
        put 644 "$file" "$2/${file##*/}" || return 1
    done
}

# page_of FILE: prints a page. A link to what is not installed becomes its text, and a picture is left out.
page_of() {
    local kept='(TUTORIAL|REFERENCE|COOKBOOK|MESSAGES|SECURITY)\.md|LICENSE|using/[^)]*|https?:[^)]*'
    sed -E -e '/^!\[/d' -e "s,\[([^]]*)\]\((($kept)?(#[^)]*)?)\),[\1]\x01(\2),g" \
        -e 's,\[([^]]*)\]\([^)]*\),\1,g' -e 's,\x01,,g' "$1"
}

# put MODE FILE TO: the file beside its place, and then there in one step, so that a program that
# is running stays whole.
put() {
    local folder=${3%/*}
    while [ ! -d "$folder/" ]; do
        folders+=("$folder")
        [ "$folder" != "$to" ] || break
        folder=${folder%/*}
    done
    install -D -m "$1" -- "$2" "$3.new" && mv -f -- "$3.new" "$3" && files+=("${3#"$to"/}")
}

# sums_of FOLDER FILE..: prints the SHA-256 and the name of each file of a folder.
sums_of() (
    CDPATH='' cd -- "$1" && sha256sum -- "${@:2}"
)

# put_lists FOLDER: what uninstall_from reads. Of an earlier installation the folders are known
# already.
put_lists() {
    local folder lists=$1/share/anyk
    sums_of "$1" "${files[@]}" > "$lists/SHA256SUMS.new" &&
        for folder in "${folders[@]}"; do
            folder=${folder#"$1"}
            printf '%s\n' "${folder#/}"
        done >> "$lists/folders" &&
        mv -f -- "$lists/SHA256SUMS.new" "$lists/SHA256SUMS"
}

# remove_others FOLDER SUMS: removes what an earlier installation has put there, and this one has
# not.
remove_others() {
    local sum file
    while read -r sum file; do
        case " ${files[*]} " in
            *" $file "*) ;;
            *) remove_same "$1" "$sum" "$file" || true ;;
        esac
    done <<< "$2"
}

# remove_same FOLDER SUM FILE: removes a file that is as it was put there. Returns 1 if it was
# changed.
remove_same() {
    case /$3/ in
        // | */../* | //*) return 0 ;;
    esac
    [ -f "$1/$3" ] || return 0
    [ "$(sha256sum < "$1/$3")" = "$2  -" ] && rm -f -- "$1/$3"
}

# uninstall_from FOLDER: removes what install_under has put there, and the folders that were made
# for it, if they are empty then.
uninstall_from() {
    local lists=$1/share/anyk sum file folder folders left=()
    if [ ! -f "$lists/SHA256SUMS" ] || [ ! -f "$lists/folders" ]; then
        echo "anyk: nothing was installed under $1, or by a version that kept no list of it" >&2
        return 1
    fi
    mapfile -t folders < <(LC_ALL=C sort -ru "$lists/folders")
    while read -r sum file; do
        remove_same "$1" "$sum" "$file" || left+=("$file")
    done < "$lists/SHA256SUMS"
    rm -f -- "$lists/SHA256SUMS" "$lists/folders" || return 1
    for folder in "${folders[@]}"; do
        case /$folder/ in
            */../*) ;;
            *) rmdir -- "$1/$folder" 2> /dev/null ;;
        esac
    done
    echo "anyk: removed from $1"
    for file in "${left[@]}"; do
        echo "anyk: $1/$file was changed since, and is left" >&2
    done
}

# pack_release TOP PROGRAM FILE ABOUT TIME: packs what install_under puts in place, with a page,
# the licence and the sums. The bytes are the same for the same files and the same time, in
# seconds.
pack_release() {
    local room version files=() folders=() to
    version=$(< "$1/VERSION")
    umask 022
    if room=$(make_room) && to=$room/anyk-$version && put_all "$1" "$2" "$to" "$4" &&
        put 644 "$1/LICENSE" "$to/LICENSE" && put 644 <(text_of_readme "$version") "$to/README" &&
        sums_of "$to" "${files[@]}" > "$to/SHA256SUMS" &&
        tar -C "$room" --sort=name --owner=0 --group=0 --numeric-owner --mtime="@$5" \
            -c "${to##*/}" | gzip -n -9 > "$3.new" && mv -f -- "$3.new" "$3"; then
        rm -rf -- "$room"
        echo "anyk: packed as $3"
    else
        echo "anyk: $3 could not be made" >&2
        rm -rf -- "${room:-$3.new}" "$3.new"
        return 1
    fi
}

# make_room: prints the name of a folder that is made for this call.
make_room() {
    mktemp -d "${TMPDIR:-/tmp}/anyk.XXXXXX" 2> /dev/null || mktemp -d /tmp/anyk.XXXXXX
}

# text_of_readme VERSION
text_of_readme() {
    cat << END
anyk $1: the first answers of a join of CSV tables, best first, by a program that is proved.

    bash bin/anyk run --ranks share/doc/anyk/using/stay.sql \\
        trains=share/doc/anyk/using/trains.csv hotels=share/doc/anyk/using/hotels.csv

It needs Linux on x86-64, bash and glibc 2.34 or later; pictures, hints and tools need python3.
It runs where it is, also by a link to bin/anyk. To remove it, remove the folder.
The pages are in share/doc/anyk: begin with TUTORIAL.md. The manual page is share/man/man1/anyk.1.
bin/anyk --version names the commit and the kit; the repository says how it is proved.
sha256sum -c SHA256SUMS says whether each file is as it was packed. LICENSE has the terms.
END
}
