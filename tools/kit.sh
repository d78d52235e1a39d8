# Where the kit is, and what is made with its compiler: read by `.`, with $tree, the repository, set.
kit=$(dirname "$(rt doc)")
tools=$kit/toolchain

# The crates of this repository that a crate uses: what crates.txt lists for it, and, for `below`, what those stand on too.
uses() { # CRATE
    awk -F: -v crate="$1" '
        /^[a-z]/ { name = $1; sub(/ .*/, "", name); listed[name] = 1; if (name == crate) words = $2 }
        END { count = split(words, word, " "); for (i = 1; i <= count; i++) if (word[i] in listed) print word[i] }' "$tree/crates.txt"
}

below() { # CRATE
    awk -F: -v crate="$1" '
        /^[a-z]/ { name = $1; sub(/ .*/, "", name); words[name] = $2 }
        END {
            found[total = 1] = crate
            for (k = 1; k <= total; k++) {
                count = split(words[found[k]], word, " ")
                for (i = 1; i <= count; i++) if (word[i] in words && !seen[word[i]]++) print found[++total] = word[i]
            }
        }' "$tree/crates.txt"
}

# A static library as `rt lib` makes it, by the compiler of the folder TOOLCHAIN, over the libraries that lie in each crate's out/.
static_library() ( # CRATE TOOLCHAIN FILE
    crate=$1 toolchain=$2 file=$3
    set -- --crate-name "$crate" src/lib.rt --crate-type staticlib --cpu x86-64 --extern "std=$kit/rlibs/std.rlib" -L "dependency=$kit/rlibs"
    for name in $(uses "$crate"); do set -- "$@" --extern "$name=$tree/crates/$name/out/rlib/$name.rlib"; done
    for name in $(below "$crate"); do set -- "$@" -L "dependency=$tree/crates/$name/out/rlib"; done
    cd "$tree/crates/$crate"
    "$kit/bin/rattle" build "$@" --antt-project "$kit/rattle/logic/antt-project.json" --logic-built "$kit/logic_built" \
        --toolchain "$toolchain" --backend llvm -o "$file"
)

# Whether all libraries below a crate are those that `rt ci` left: those of its own checks have a stamp beside them.
left_by_gate() ( # CRATE
    for name in $(below "$1"); do
        at=$tree/crates/$name/out/rlib
        [ -f "$at/$name.rlib/format" ] && [ ! -e "$at/stamp" ] || exit 1
    done
)

# The static library of a proved crate, in FILE, for every x86-64; all that is said while it is made goes to LOG, and is shown if it fails.
# Right behind `rt ci`, where `.ci/run` sets RT_CI_PASSED, the libraries that it left are taken: `rt lib` would prove them again.
proved_library() ( # CRATE FILE LOG
    if [ -n "${RT_CI_PASSED:-}" ] && left_by_gate "$1"; then
        static_library "$1" "$tools" "$2" >"$3" 2>&1
    else
        cd "$tree/crates/$1" && rt lib --cpu x86-64 >"$3" 2>&1 && cp "out/lib$1.a" "$2"
    fi || {
        cat "$3" >&2
        exit 1
    }
)
