#!/usr/bin/env bash
# What the scripts share that compile what ./check or ./build proved: the crates, and the header. They read this file by `source`.
top=$(dirname "$(dirname "$(dirname "$(readlink -f "${BASH_SOURCE[0]}")")")")
header=$top/c/abc2midi_live.h
proved=$top # below crates/ there are the proved libraries

# Prints why nothing is made, and ends.
refuse() {
    printf '%s: %s\n' "${0##*/}" "$1" >&2
    exit 1
}

# Sets `kit` to the folder of the toolkit, and `over` to the flags of the proved libraries that a crate uses.
find_libraries() {
    local name used library
    command -v rt >/dev/null || refuse 'the Rattle toolkit is missing: put its command rt on the path'
    kit=$(dirname "$(rt doc)")
    over=(-L "dependency=$kit/rlibs" --extern "std=$kit/rlibs/std.rlib")
    read -ra used < <(sed -En "s/^$1( staticlib)?: //p" "$top/crates.txt")
    for name in "${used[@]}"; do
        library=$(library_of "$name") # a failure ends the script
        over+=(--extern "$name=$library")
    done
    for name in "$proved"/crates/*/out/rlib; do
        over+=(-L "dependency=$name")
    done
}

# Prints where the proved library of a crate is, one of the toolkit's or of ours.
library_of() {
    if [ ! -d "$top/crates/$1" ]; then
        printf '%s\n' "$kit/rlibs/$1.rlib"
    elif [ -d "$proved/crates/$1/out/rlib/$1.rlib" ]; then
        printf '%s\n' "$proved/crates/$1/out/rlib/$1.rlib"
    else
        refuse "$1 is not proved yet: run ./check first"
    fi
}

# Runs a subcommand of rattle on a crate, whose root file is named, with more flags.
on_crate() {
    (cd "$top/crates/$1" && "$kit/bin/rattle" "$3" --crate-name "$1" "src/$2" "${over[@]}" \
        --antt-project "$kit/rattle/logic/antt-project.json" --logic-built "$kit/logic_built" "${@:4}")
}

# The same for the crate of the exports.
on_exports() {
    on_crate c_library lib.rt "$1" --crate-type staticlib "${@:2}"
}

# Makes a folder of tools as the toolkit's, whose clang also copies the module of LLVM that it compiles to a file.
make_tools() {
    mkdir -p "$1/bin"
    ln -s "$kit"/toolchain/bin/* "$1/bin"
    ln -s "$kit/toolchain/lib" "$1"
    rm "$1/bin/clang"
    cat >"$1/bin/clang" <<END
#!/usr/bin/env bash
for word; do
    case \$word in
    module.bc | */module.bc) cp "\$word" '$2' ;;
    esac
done
exec '$kit/toolchain/bin/clang' "\$@"
END
    chmod +x "$1/bin/clang"
}

# Prints the names of the calls in the header.
calls() {
    grep -o '\babc_live_[a-z_]*(' "$header" | tr -d '(' | LC_ALL=C sort -u
}
