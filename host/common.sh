# shellcheck shell=sh disable=SC2034
# For the scripts here and the gate, which read it with '.' at the top of the repository: the tools that
# must be there, the library, and how C is compiled with it. What is built is in target/, and where it is as
# new as its sources nothing is written.
warnings="-std=c11 -Wall -Wextra -Wpedantic -Wconversion -Werror -Iinclude"
sanitizers="-g -fsanitize=address,undefined -fno-sanitize-recover=all"
library=target/staticlib/libunit.a

# stop MESSAGE: ends the script, or a subshell of it, which the script ends with.
stop() {
    echo "$0: $1" >&2
    exit 2
}

# need COMMAND WHAT: ends the script where the command is missing.
need() {
    command -v "$1" >/dev/null 2>&1 || stop "'$1' is not on PATH; it is $2"
}

# is_current FILE SOURCE ..: whether the file is there, and nothing of the sources is newer. What rt makes of a crate is
# in a folder out in it, and no source.
is_current() (
    file=$1
    shift
    [ -f "$file" ] && [ -z "$(find "$@" -name out -prune -o -newer "$file" -print | head -n 1)" ]
)

library_is_current() {
    is_current "$library" crates crates.txt toolchain
}

program_is_current() {
    is_current "target/host/$1" "$library" host include
}

# in_turn COMMAND ..: runs it in a subshell, while no other script builds here.
in_turn() (
    new=target/host/new.$$
    why=$({ mkdir -p target/host && touch target/host/lock "$new" && rm "$new"; } 2>&1) ||
        stop "something has to be built, and $PWD/target/host cannot be written in: $why"
    exec 9>target/host/lock
    if command -v flock >/dev/null 2>&1 && ! flock -n 9; then
        echo "$0: waits for another that builds in $PWD/target" >&2
        flock 9
    fi
    "$@"
)

# The number of crates that the unit stands on, itself among them; each stands on those above it alone.
count_crates() {
    awk '
        /^[^#]/ { sub(/:/, " "); crates[++last] = $0 }
        END {
            needed["unit"]
            for (i = last; i > 0; i--) {
                words = split(crates[i], word, " ")
                if (!(word[1] in needed)) continue
                count++
                for (k = 2; k <= words; k++) needed[word[k]]
            }
            print count
        }' crates.txt
}

# Reads what rt says, and says after each crate that it proved how far it is. Fails unless the last line is this one.
follow_proofs() {
    crates=$(count_crates)
    n=0
    last=
    while IFS= read -r said; do
        last=$said
        case $said in
        "crate "*": "*) crate=${said#crate } crate=${crate%%:*} ;;
        "logic=proved "*)
            n=$((n + 1))
            echo "$0: $n of $crates: $crate proved" >&2
            ;;
        esac
    done
    [ "$last" = "$1" ]
}

# rt writes the library into the crate's folder. It is copied under another name first: so it is whole at any time.
make_library() {
    (cd crates/unit && rt lib) &&
        mkdir -p "${library%/*}" &&
        cp crates/unit/out/libunit.a "$library.new" &&
        mv "$library.new" "$library"
}

prove() {
    if library_is_current; then # another built it
        return
    fi
    need rt "the Rattle toolchain, which proves and builds the library"
    log=target/host/library.log
    echo "$0: proves and builds the library, minutes where nothing is proved yet" >&2
    { make_library 2>&1 && echo "all proved"; } | tee "$log" | follow_proofs "all proved" || {
        tail -n 20 "$log" >&2
        stop "the library was not proved and built; $PWD/$log has all that rt said"
    }
}

# Proves and builds the library, unless one is built that is as new as its sources.
build_library() {
    library_is_current || in_turn prove
}

# compile NAME OUTPUT FLAG ..: host/NAME.c with the library, to target/host/OUTPUT.
compile() {
    need cc "the C compiler"
    source=host/$1.c
    output=target/host/$2
    shift 2
    mkdir -p target/host
    # shellcheck disable=SC2086
    cc $warnings "$@" "$source" "$library" -o "$output"
}

# The program is compiled under another name first: so it is whole at any time, whoever runs it.
renew() {
    prove
    if program_is_current "$1"; then # another built it
        return
    fi
    compile "$1" "$1.$$" -O2 || stop "host/$1.c was not compiled"
    mv "target/host/$1.$$" "target/host/$1"
}

# build NAME: host/NAME.c with the library, to target/host/NAME, unless both are as new as their sources.
build() {
    if library_is_current && program_is_current "$1"; then
        return
    fi
    in_turn renew "$1"
}
