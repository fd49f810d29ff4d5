#!/usr/bin/env bash
# For which machine a script compiles what ./check proved. The scripts read this file by `source`, after exports.bash.
# shellcheck disable=SC2034,SC2154 # the scripts that read this file use some variables and set others

# Reads the option --machine, which comes first. It sets `machine`, the toolkit's name `target` for it, the C compiler `cc`, the
# beginning `tools` of the names of binutils, and `words` to the other arguments.
read_machine() {
    machine=x86-64
    words=("$@")
    if [ "${1-}" = --machine ]; then
        machine=${2-}
        words=("${@:3}")
    fi
    refuse_other_options
    case $machine in
    x86-64)
        target=x86_64-unknown-linux-gnu
        cc=${CC:-cc}
        tools=
        ;;
    arm64)
        target=aarch64-unknown-linux-gnu
        cc=aarch64-linux-gnu-gcc
        tools=aarch64-linux-gnu-
        command -v "$cc" >/dev/null || refuse 'a Debian package is missing: install gcc-aarch64-linux-gnu'
        ;;
    *) refuse "the machine is x86-64 or arm64, and not '$machine'" ;;
    esac
}

# Prints the usage if `words` begin with an option that asks for it, and refuses an option that no script has. The usage is in the second
# line of each script.
refuse_other_options() {
    local usage
    usage=$(sed -n '2s/.*usage: /usage: /p' "$0")
    case ${words[0]-} in
    --missing) ;;
    -h | --help) printf '%s\n' "$usage" && exit ;;
    -*) refuse "there is no option '${words[0]}'; $usage" ;;
    esac
}

# Compiles a file of c/toolkit: those are the toolkit's calls of C, which it has for x86-64 alone.
compile_calls() {
    "$cc" -std=c99 -O2 -fPIC -Wall -Wextra -Werror -pedantic -c "$top/c/toolkit/$1.c" -o "$room/$1.o"
}

# Sets `heap` to the object or the library with the heap's calls for the machine.
make_heap() {
    heap=$kit/c/liblibc_c.a
    if [ "$machine" != x86-64 ]; then
        compile_calls heap
        heap=$room/heap.o
    fi
}
