# shellcheck shell=sh
# What the program is built from: its crate and the libraries below it, as crates.txt lists them. Read by `. .ci/sources.sh` at the
# top of a checkout; `sh .ci/sources.sh sum` prints the sum alone, and `sh .ci/sources.sh list` what it is taken over.

# The lines of crates.txt for the program's crate and for each library of the repository below it.
program_lines() {
    awk -F: '
        function add(name, count, words, i) {
            if (name in is_added || !(name in line)) return
            is_added[name]
            print line[name]
            count = split(below[name], words, " ")
            for (i = 1; i <= count; i++) add(words[i])
        }
        /^[ \t]*(#|$)/ { next }
        { name = $1; sub(/ .*/, "", name); line[name] = $0; below[name] = $2 }
        END { add("sn_bin") }
    ' crates.txt | LC_ALL=C sort
}

# The folders in which these crates have their sources.
program_folders() {
    program_lines | sed 's/[ :].*//' | while read -r name; do
        for part in src specs proofs; do
            if [ -d "crates/$name/$part" ]; then
                echo "crates/$name/$part"
            fi
        done
    done
}

# These lines, and the path of each source: no test and no page is among them.
list_sources() {
    program_lines
    # (no path of a crate has a space)
    # shellcheck disable=SC2046
    find $(program_folders) -type f | LC_ALL=C sort
}

# One sum of these lines and of the bytes of each source.
sum_of_sources() {
    {
        program_lines
        # shellcheck disable=SC2046
        find $(program_folders) -type f | LC_ALL=C sort | xargs sha256sum
    } | sha256sum | cut -d ' ' -f 1
}

case ${0##*/}:${1-} in
    sources.sh:sum) sum_of_sources ;;
    sources.sh:list) list_sources ;;
esac
