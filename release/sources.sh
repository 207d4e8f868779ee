# What the programs are built from, for vr, release/build and .ci, which read this file. The functions speak of the
# sources in the current folder.

# The programs that are released.
programs='vr_cli vr_refine'

# The crates of the programs: each of them, and those of the repository that it uses.
program_crates() {
    awk -v programs="$programs" '
        { sub(/#.*/, "") }
        split($0, halves, ":") == 2 { split(halves[1], words, " "); below[words[1]] = halves[2] }
        function add(crate,  names, count, k) {
            if (!(crate in below) || crate in added) return
            added[crate] = 1
            print crate
            count = split(below[crate], names, " ")
            for (k = 1; k <= count; k++) add(names[k])
        }
        END {
            total = split(programs, program, " ")
            for (n = 1; n <= total; n++) add(program[n])
        }
    ' crates.txt
}

# The sha256 of a file, or of standard input.
sum_of() {
    local sum
    sum=$(sha256sum "$@") && echo "${sum%% *}"
}

# The sha256 of the names and bytes of crates.txt and of each file in src/ of these crates.
sources_sum() {
    find crates.txt $(printf 'crates/%s/src ' $(program_crates)) -type f -exec sha256sum {} + | LC_ALL=C sort -k 2 | sum_of
}

# The file built-from of programs that are to be built here now. Once they are built, a line for each has the sum of
# its bytes.
built_from() {
    echo "kit: $(rt version)"
    echo "sources: $(sources_sum)"
}

# A field of such a file: kit, sources, or the name of a program.
released_field() { sed -n "s/^$1: //p" "$2"; }
