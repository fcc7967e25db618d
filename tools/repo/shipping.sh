# What dist/ has of a program: its assembly, as the kit's clang made it, and the sums. Part of tools/build, whose functions it
# uses.

# shipped PROGRAM WORD: one of the sums of dist/
shipped() { sed -n "s/^$2 //p" "$top/dist/$1.built" 2>/dev/null; }

# first_changed PROGRAM: the first file of its crates that is not as the commit with its sums has it, or else crates.txt, if git
# knows
first_changed() {
    local commit folders
    commit=$(git -C "$top" log -1 --format=%H -- "dist/$1.built" 2>/dev/null) && [ -n "$commit" ] || return 0
    mapfile -t folders < <(plan "$1" | sed 's|^|crates/|')
    {
        git -C "$top" diff --name-only "$commit" -- "${folders[@]}"
        git -C "$top" ls-files --others --exclude-standard -- "${folders[@]}"
        git -C "$top" diff --name-only "$commit" -- crates.txt
    } 2>/dev/null | grep -E '^crates[.]txt$|[.](rt|antt)$' | head -n 1
}

# not_shipped PROGRAM SUM: why what dist/ has is not the program of the source with this sum; nothing if it is
not_shipped() {
    local changed
    if [ "$(shipped "$1" sources)" != "$2" ]; then
        changed=$(first_changed "$1")
        echo "dist/ is not of this source${changed:+: $changed has changed since}"
    elif [ "$(shipped "$1" assembly)" != "$(sum_of "$top/dist/$1.s")" ]; then
        echo "dist/$1.s is not the file of which dist/$1.built has the sum"
    fi
}

# take PROGRAM: assembles the program of dist/ as if it had been built here, and notes where it comes from
take() {
    local begun sources why
    [ -f "$top/dist/$1.built" ] || return 1
    begun=$(mktemp) || return 1
    sources=$(source_sum "$1")
    why=$(not_shipped "$1" "$sources")
    if [ -n "$why" ]; then
        rm -f "$begun"
        echo "$1: $why" >&2
        return 1
    fi
    # while it is made, the program and its stamp have other names
    CFLAGS=-O2 LDFLAGS='' "$top/tools/repo/assemble" "$1" "$(program_of "$1").new" && mv -f "$(program_of "$1").new" "$(program_of "$1")" &&
        printf 'sources %s\nrt %s\nprogram %s\norigin dist\n' "$sources" "$(shipped "$1" rt)" "$(sum_of "$(program_of "$1")")" \
            >"$(stamp_of "$1").new" && touch -r "$begun" "$(stamp_of "$1").new" && mv -f "$(stamp_of "$1").new" "$(stamp_of "$1")"
    set -- "$1" $?
    rm -f "$begun"
    [ "$2" != 0 ] || echo "$1: proved elsewhere, by $(shipped "$1" rt | cut -d ' ' -f 1): assembled from dist/$1.s," \
        "which is of this source; ./zygos build proves it here" >&2
    return "$2"
}

# assemble PROGRAM FILE: makes the program of dist/ with the assembler and the linker of rt's kit, as rt makes a program
assemble() {
    local kit
    kit=$(dirname "$(dirname "$(readlink -f "$(command -v rt)")")")
    "$kit/toolchain/bin/clang" --target=x86_64-unknown-linux-gnu -march=x86-64-v2 -c "$top/dist/$1.s" -o "$2.o" &&
        "$kit/bin/rattle-link" --target x86_64-unknown-linux-gnu --toolchain "$kit/toolchain" -o "$2" "$2.o" \
            "$kit/c/libos_c.a" "$kit/c/liblibc_c.a" 2>/dev/null
}

# gives_program PROGRAM FILE: whether dist/ is of this source, and gives this program byte for byte. The status is 3 if that
# cannot be found out here.
gives_program() {
    local why
    if [ ! -f "$top/dist/$1.built" ]; then
        echo "$1: dist/ does not have it; tools/release makes it" >&2
        return 3
    fi
    why=$(not_shipped "$1" "$(source_sum "$1")")
    if [ -n "$why" ]; then
        echo "$1: $why; tools/release makes dist/ anew, and tools/release --sums renews its sums if the program is the same" >&2
        return 1
    fi
    if [ "$(shipped "$1" rt)" != "$(rt version 2>/dev/null)" ]; then
        echo "$1: not compared with what dist/ gives, which $(shipped "$1" rt) made: rt is of another kit, or not here" >&2
        return 3
    fi
    room=$(mktemp -d) || return 1
    assemble "$1" "$room/$1" && cmp -s "$room/$1" "$2" && return
    echo "$1: dist/$1.s does not give the program that rt makes of this source" >&2
    return 1
}
