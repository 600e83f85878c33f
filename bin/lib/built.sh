# What bin/names, bin/program and bin/test share: it proves and builds the program if its sources have changed.
# The caller sets `top`, the top of the repository.
program=$top/crates/names_main/out/names_main

# Prints the comment at the head of the caller for `--help`. Rejects any other word that the first argument doesn't list.
take_options() {
    local word
    for word in "${@:2}"; do
        if [ "$word" = --help ]; then
            awk 'NR > 1 { if (!/^#/) exit; sub(/^# ?/, ""); print }' "$0"
            exit 0
        elif [[ " $1 " != *" $word "* ]]; then
            echo "${0##*/}: it takes no word $word, only $1 and --help, which says what it does" >&2
            exit 2
        fi
    done
}

# Ends the script with one line unless there is an `rt` of a version that README names.
need_kit() { (cd -- "$top/bin" && python3 -B -c "from lib import shared; shared.need_kit('${0##*/}')") || exit 2; }

# Ends the script with one line if a crate's folder can't be written to.
need_folders() {
    local folder
    folder=$(find "$top/crates" -maxdepth 2 -type d ! -writable -print -quit)
    [ -z "$folder" ] || { echo "${0##*/}: $folder can't be written to, and rt keeps there what it proves" >&2; exit 2; }
}

# Prints this crate and the libraries of the repository below it, each after the ones that it uses.
with_libraries() { (cd -- "$top/bin" && python3 -B -c "from lib import shared; print(*shared.used_by('$1'), sep='\n')"); }

# Prints the checksum of what the program is made from: of the contents of files, and not of their times.
sources_sum() {
    (
        cd -- "$top/crates"
        with_libraries names_main | xargs -I '{}' find '{}' -name out -prune -o \( -name '*.rt' -o -name '*.antt' \) -type f -print0 \
            | LC_ALL=C sort -z | xargs -0 sha256sum ../crates.txt
    ) | sha256sum
}

# `built_sum` prints the checksum of the sources and of the program. `is_built` tests whether the program was built from the
# sources as they are. `keep_sum` stores the checksum beside the program, if the sources still have the given sum.
built_sum() { echo "$(sources_sum) $(sha256sum < "$program")"; }
is_built() { [ -x "$program" ] && [ -f "$program.sum" ] && [ "$(< "$program.sum")" = "$(built_sum)" ]; }
keep_sum() { [ -x "$program" ] && [ "$(sources_sum)" = "$1" ] && built_sum > "$program.sum"; }

# Proves and builds a crate and those below it, and reports its progress on standard error, in one line if that is a terminal. The
# second argument ends the line that it begins with.
build() {
    local sum log running far told='' status=0 line='%s\n' start=$SECONDS
    need_kit
    need_folders
    far="$1 is proved and built first, in half an hour of one core; if that is stopped, the next run goes on from there"
    echo "${0##*/}: $far${2:-}" >&2
    [ ! -t 2 ] || line='\r\033[K%s'
    sum=$(sources_sum)
    log=$(mktemp) || exit 2
    set -m
    # The lowest crate comes first: if a crate below isn't proved, rt goes through all sources once more.
    (set -- $(with_libraries "$1"); at=0; for crate; do
        echo "== $crate, crate $((++at)) of $#"
        cd -- "$top/crates/$crate" && if [ -f src/main.rt ]; then rt run; else rt lib; fi || exit 1
    done) < /dev/null > "$log" 2>&1 &
    running=$!
    set +m
    trap 'kill -TERM -- "-$running" 2> /dev/null; rm -f "$log"' EXIT
    trap 'exit 130' INT; trap 'exit 143' TERM HUP
    while kill -0 "$running" 2> /dev/null; do
        sleep 0.5
        far=$(awk '/^== .* crate [0-9]/{ far = substr($0, 4); many = "" }
            /^so far: [0-9]/{ many = ": " $3 " of " $5 " functions" } END { print far many }' "$log")
        far=${far:+$far, $(((SECONDS - start) / 60)) min so far}
        [ "$far" = "$told" ] || printf "$line" "$far" >&2
        told=$far
    done
    far="$1 is proved and built, in $((SECONDS - start)) s"
    wait "$running" || { status=1; far="$(< "$log")"$'\n'"$1 was not proved and built"; }
    printf "$line" "$far" >&2
    [ ! -t 2 ] || echo >&2
    trap - EXIT INT TERM HUP; rm -f "$log"
    [ "$status" -eq 0 ] && { [ "$1" != names_main ] || keep_sum "$sum"; }
}
