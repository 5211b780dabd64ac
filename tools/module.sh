# Sourced by tools/aarch64 and tools/power: what counts as passed, the packages that are wanted, and the LLVM module of a library. The caller has
# `room`, a folder for its files, and starts with passed=0 and times=().
# shellcheck shell=bash

ok() {
    passed=$((passed + 1))
    echo "ok: $*"
}

fail() {
    echo "FAILED: $*"
    echo "$passed passed, 1 failed"
    exit 1
}

# Runs a part, and keeps how long it took.
part() {
    local from=$SECONDS
    "$1"
    times+=("$(printf 'time %-8s %5d s' "$1" $((SECONDS - from)))")
}

# What cannot be run here. It is reported, and not counted.
left_out() {
    echo "left out: $*"
}

# A command, or a file by its path.
is_there() {
    command -v "$1" > /dev/null || [ -e "$1" ]
}

# wanted THING PACKAGE..: installs the packages if the thing is missing and we may.
wanted() {
    local thing=$1
    shift
    is_there "$thing" && return
    echo "installing $*"
    { apt-get -qq update && apt-get -qq install -y --no-install-recommends "$@"; } > "$room/apt" 2>&1 || true
    is_there "$thing" && return
    tail -n 3 "$room/apt"
    fail "$thing is missing: please install the Debian packages $*"
}

# The toolchain's folder with clang, llvm-ar and ld.lld.
find_toolchain() {
    command -v rt > /dev/null || fail "rt is not there: the Rattle toolchain is needed"
    real=$(dirname "$(rt doc)")/toolchain
}

# Proves a library, builds it for x86-64, and keeps its module and the options of clang. Compiled again with them it must give the same object.
keep_module() {
    local name=$1 again=$room/$1.again object words
    tools/archives --keep "$room" "$name" > "$room/said" 2>&1 || { tail -n 5 "$room/said"; fail "tools/archives $name"; }
    cp "$room/$name.bc" "$room/module.bc"
    cp "$room/$name.words" "$room/words"
    # Its sysroot was a folder that is gone. No file of it is read.
    mapfile -t words < <(sed "s,^--sysroot=.*,--sysroot=$real," "$room/words")
    mkdir "$again"
    cp "$room/module.bc" "$again/module.bc"
    object=$("$real/bin/llvm-ar" t "target/staticlib/lib$name.a")
    [[ $object == *.o && $object != *$'\n'* ]] || fail "$name: one object is expected in its archive, and not: $object"
    (cd "$again" && "$real/bin/clang" "${words[@]}" && "$real/bin/llvm-ar" x "$OLDPWD/target/staticlib/lib$name.a") ||
        fail "$name: its module does not compile again"
    cmp "$again/module.o" "$again/$object" || fail "$name: its module gives another x86-64 object"
    ok "$name: the module is the one that the x86-64 archive was compiled from"
}
