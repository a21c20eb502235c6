# To be sourced from the project's folder: builds C programs against the static libraries, and runs them.
# It needs the Rattle kit alone, which is for x86-64: the kit's clang, linker and C library; tests/include stands in for C's own headers.
command -v rt >/dev/null || { echo "rt, the command of the Rattle kit, is not on the PATH"; exit 1; }
kit=$(dirname "$(rt doc)")
tools=$kit/toolchain
machine=x86_64-unknown-linux-gnu
archives=()

# Whether a file that was made is missing, or older than crates.txt or a crate; what rt makes in crates/*/out does not count.
stale() { [ ! -f "$1" ] || [ -n "$(find crates.txt -newer "$1")" ] || [ -n "$(find crates -mindepth 2 -path 'crates/*/out' -prune -o -newer "$1" -print -quit)" ]; }

# Proves a library and writes its archive, unless one is there that is newer than all crates. The archive is of the thin crate NAME_c above the crate NAME.
library() {
    local archive=target/staticlib/lib$1.a
    archives+=("$archive")
    stale "$archive" || return 0
    rm -f "$archive"
    mkdir -p target/staticlib
    (cd "crates/$1_c" && rt lib) >"target/$1.say" 2>&1 </dev/null || { tail -n 5 "target/$1.say" && return; }
    # an archive assumes nothing of any function of C
    ! grep '^logic=proved .* axioms=' "target/$1.say" || return 0
    cp "crates/$1_c/out/lib$1_c.a" "$archive"
}

# Proves a program and builds it, unless it is there and newer than all crates, as after `rt ci`. `rt run` alone builds one, and runs it.
program() {
    local built=crates/$1/out/$1
    stale "$built" || return 0
    mkdir -p target
    (cd "crates/$1" && rt run) >"target/$1.say" 2>&1 </dev/null || { tail -n 5 "target/$1.say" && false; }
}

# Proves a program, and leaves what its check said in target/NAME.check, unless that is there and newer than all crates.
checked() {
    local said=target/$1.check
    stale "$said" || return 0
    mkdir -p target
    (cd "crates/$1" && rt check) >"$said" 2>&1 </dev/null || { tail -n 5 "$said" && rm "$said" && false; }
}

# Compiles a source into an object.
compile() {
    "$tools/bin/clang" --target=$machine -std=c99 -Wall -Wextra -Werror -O2 -fPIC -nostdinc -isystem tests/include -Iinclude -c "$1" -o "$2"
}

# Links a program from objects and the libraries.
link() {
    local program=$1
    shift
    "$kit/bin/rattle-link" --target $machine --toolchain "$tools" -o "$program" "$@" "${archives[@]}"
}

# Runs a program with its arguments.
run() { "$tools/lib/ld-linux-x86-64.so.2" --library-path "$tools/lib" "$@"; }
