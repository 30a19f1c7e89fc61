# What the scripts know of the built program: which sources it belongs to, and whether it runs here. Read by `.`; the
# variable `root` names the top of the repository.

gate_program=$root/crates/pathsum/out/pathsum
carried_program=$root/dist/pathsum

# The folder of the installed toolchain; nothing where there is none.
kit() {
    local rt
    rt=$(command -v rt) || return 1
    dirname "$(dirname "$(readlink -f "$rt")")"
}

# The line by which the toolchain names itself, as `rt version` prints it (and quicker, where its file stands).
toolchain_line() {
    local folder
    folder=$(kit) || return 1
    if [ -r "$folder/KIT-ID" ]; then cat "$folder/KIT-ID"; else rt version; fi
}

# A checksum of all that a build reads: each .rt and .antt file, specifications and proofs included, with its path;
# crates.txt and HANDLES; and the toolchain's line, which is handed in.
source_sum() {
    (
        cd "$root" || exit 1
        {
            find crates -name out -prune -o -type f \( -name '*.rt' -o -name '*.antt' \) -print0 | LC_ALL=C sort -z |
                xargs -0 sha256sum
            sha256sum crates.txt HANDLES
            echo "toolchain $1"
        } | sha256sum | cut -d ' ' -f 1
    )
}

# A value of the note that stands beside a program: `program`, `sources` or `toolchain`.
noted() { sed -n "s/^$2 //p" "$1.built" 2>/dev/null; }

# Writes that note.
note_built() {
    local line=$2
    {
        echo "program $(sha256sum <"$1" | cut -d ' ' -f 1)"
        echo "sources $(source_sum "$line")"
        echo "toolchain $line"
    } >"$1.built"
}

# Whether a program belongs to the sources as they stand and is as it was noted. Where no toolchain is installed here,
# the one that built it is taken at its word.
is_of_sources() {
    local line
    [ -x "$1" ] && [ -r "$1.built" ] || return 1
    line=$(toolchain_line) || line=$(noted "$1" toolchain)
    [ "$(noted "$1" program)" = "$(sha256sum <"$1" | cut -d ' ' -f 1)" ] && [ "$(noted "$1" sources)" = "$(source_sum "$line")" ]
}

# Whether a program runs on this machine: without words it answers `words` and ends with status 64.
runs_here() {
    local said
    said=$("$1" </dev/null 2>/dev/null)
    [ $? -eq 64 ] && [ "$said" = words ]
}

# The path of a proved program that belongs to the sources and runs here: the carried one, else the one built here.
proved_program() {
    local program
    for program in "$carried_program" "$gate_program"; do
        if is_of_sources "$program" && runs_here "$program"; then
            echo "$program"
            return 0
        fi
    done
    return 1
}

# Writes a program without the symbols that only a debugger reads. Always by the toolchain's own LLVM, since another
# strip leaves other bytes.
strip_program() {
    local folder
    folder=$(kit) || return 1
    (exec -a llvm-strip "$folder/toolchain/bin/clang" --strip-all --keep-section=.comment -o "$2" "$1")
}
