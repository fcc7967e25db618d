# The source of programs: their crates, one checksum of all their files, and copies of them. Part of tools/build and
# tools/release, which set `top`.

# programs: those of the layer "program" of crates.txt
programs() {
    local one
    awk '/^#/ { inside = $2 == "program" } inside && /^[a-z]/ { sub(/[ :].*/, ""); print }' "$top/crates.txt" |
        while read -r one; do [ ! -f "$top/crates/$one/src/main.rt" ] || echo "$one"; done
}

# plan PROGRAM ..: the crates of these programs: their own, and all that they use
plan() {
    awk -v programs="$*" '
        /^#/ || !NF { next }
        { name = $1; sub(/^[^:]*:/, ""); sub(/:$/, "", name); needs[name] = $0 }
        function visit(name,    list, count, i) {
            if (!(name in needs) || name in seen) return
            seen[name] = 1
            print name
            count = split(needs[name], list, " ")
            for (i = 1; i <= count; i++) visit(list[i])
        }
        END { count = split(programs, all, " "); for (at = 1; at <= count; at++) visit(all[at]) }' "$top/crates.txt"
}

# sum_of FILE
sum_of() { sha256sum <"$1" | cut -d ' ' -f 1; }

# listed: the lines of crates.txt of the crates whose names come on standard input
listed() { sed 's/.*/^&[ :]/' | grep -f - "$top/crates.txt"; }

# source_sum PROGRAM: one checksum of all that it is built from: the files of its crates, and their lines of crates.txt
source_sum() {
    (cd "$top" && {
        plan "$1" | listed
        plan "$1" | sed 's|^|crates/|' | sort |
            xargs -I {} find {} -name out -prune -o -type f \( -name '*.rt' -o -name '*.antt' \) -print0 |
            LC_ALL=C sort -z | xargs -0 sha256sum
    } | sha256sum | cut -d ' ' -f 1)
}

# is_older_than FILE: whether no source is newer than a file, by the time of the last change of any kind, since a copy may keep
# the time of its text
is_older_than() {
    local newer
    newer=$(cd "$top" && find crates.txt crates -name out -prune -o -newercm "$1" \
        \( -path 'crates/*/*' -type d -o -name '*.rt' -o -name '*.antt' -o -name crates.txt \) -print -quit) && [ -z "$newer" ]
}

# copy_crates FOLDER: copies the crates whose names come on standard input, with their lines of crates.txt and without the
# edits that must fail
copy_crates() {
    local one
    mkdir -p "$1/crates" && cp "$top/HANDLES" "$1" || return
    while read -r one; do
        listed <<<"$one" >>"$1/crates.txt"
        mkdir "$1/crates/$one"
        (cd "$top/crates/$one" && find . -mindepth 1 -maxdepth 1 ! -name out ! -name must-fail -exec cp -R {} "$1/crates/$one" \;)
    done
}

# origin_in FILE: the source and the kit of a file of sums
origin_in() { sed -n 's/^sources \(.\{16\}\).*/source \1/p; s/^rt \([^ ]*\).*/\1/p' "$1" | paste -s -d ' ' | sed 's/ /, /2'; }
