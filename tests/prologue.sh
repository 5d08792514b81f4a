# Sourced first by ./test and by the scripts of tests/: strict mode, the top folder of the repository as 'root' and current folder, a
# folder 'scratch' that is removed at the end, and what several scripts do. 'start' is the folder in which the script was called.
set -euo pipefail
unset CDPATH
start=$PWD
cd "$(dirname "${BASH_SOURCE[0]}")/.."
root=$PWD
scratch=$(mktemp -d)
trap 'rm -rf "$scratch"' EXIT

# fail TEXT..: ends the script with an error
fail() {
    echo "$*" >&2
    exit 1
}

# usage TEXT: ends the script and says how it is called
usage() {
    echo "usage: $1" >&2
    exit 2
}

# absolute PATH: prints PATH, which may be relative to $start, as an absolute path
absolute() {
    if [[ $1 == /* ]]; then
        echo "$1"
    else
        echo "$start/$1"
    fi
}

# find_library DIR: sets library to DIR, and returns whether DIR has libsaszvigom.a
find_library() {
    library=$(absolute "$1")
    [ -f "$library/libsaszvigom.a" ]
}

# need PROGRAM..: installs the Debian packages of the programs that are missing, which takes root
need() {
    local program packages=()
    for program in "$@"; do
        if ! command -v "$program" >/dev/null; then
            [ "$program" = script ] && packages+=(bsdutils) || packages+=("$program")
        fi
    done
    if [ ${#packages[@]} -gt 0 ]; then
        apt-get update -qq
        apt-get install -y -qq "${packages[@]}"
    fi
}

# compile OUT SOURCE.. FLAGS..: compiles a C program as $scratch/OUT
compile() {
    local out=$1
    shift
    gcc -std=c11 -Wall -Wextra -Wconversion -Werror -pthread -Iinclude "$@" -L"$library" -lsaszvigom -o "$scratch/$out"
}

# How a program is run under valgrind, and how one is compiled with sanitizers
memcheck=(valgrind --quiet --error-exitcode=99 --leak-check=full)
sanitized=(-O1 -g -fsanitize=address,undefined -fno-sanitize-recover=all)
