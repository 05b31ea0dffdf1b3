# shellcheck shell=sh
# Reads crates.txt, for scripts that run without Python and read this file with `.`; crates.py does for the others. It takes
# the root of the repository in `root`.

# Each crate, and the libraries that its line names: a line of words for each.
crate_lines() {
    # shellcheck disable=SC2154 # root: see above
    awk '{ sub(/#.*/, "") } /:/ { split($0, half, ":"); split(half[1], word, " "); $0 = word[1] " " half[2]; $1 = $1; print }' \
        "$root/crates.txt"
}

# crate_libraries NAME: the libraries that the crate's line names, as words.
crate_libraries() {
    crate_lines | awk -v name="$1" '$1 == name { $1 = ""; print }'
}

# crates_used NAME: the crate, and those of the repository that it uses, directly or not. A line for each.
crates_used() {
    crate_lines | awk -v name="$1" '
        { crate = $1; $1 = ""; uses[crate] = $0 }
        END { list(name) }
        function list(name, names, count, at) {
            if (!(name in uses) || name in listed) return
            listed[name]
            print name
            count = split(uses[name], names, " ")
            for (at = 1; at <= count; at++) list(names[at])
        }'
}
