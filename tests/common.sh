# What the scripts share, those of .ci/, bin/ and oracle/ too; each sources this file.

root=$(cd "$(dirname "${BASH_SOURCE[0]}")/.." && pwd -P)
source "$root/tests/machine.sh"
out=$root/target/tests
archive=${SALTKERNEL_LIB_DIR:-$root/target/staticlib}/libsaltkernel.a
c_flags=(-std=c99 -Wall -Wextra -pedantic -Werror -O1 -g -I "$root/include")
passed=0
failed=0
mkdir -p "$out"

# Runs a command, and adds up what its last line 'N passed, M failed' says; one that ends otherwise counts as one that
# failed.
step() {
    local log last status
    log=$(mktemp)
    echo "== $*"
    "$@" 2>&1 | tee "$log"
    status=${PIPESTATUS[0]}
    last=$(tail -n 1 "$log")
    rm -f "$log"
    if [[ $last =~ ^([0-9]+)\ passed,\ ([0-9]+)\ failed$ ]] && [ $((status == 0)) -eq $((BASH_REMATCH[2] == 0)) ]; then
        passed=$((passed + BASH_REMATCH[1]))
        failed=$((failed + BASH_REMATCH[2]))
    else
        echo "$* ended with status $status, and its last line doesn't say so"
        failed=$((failed + 1))
    fi
}

# Runs a command as a step that passes or fails; where it fails, the end of what it says is printed.
counted() {
    local log
    log=$(mktemp)
    if ("$@") >"$log" 2>&1; then
        rm -f "$log"
        echo "1 passed, 0 failed"
    else
        tail -n 60 "$log"
        echo "0 passed, 1 failed"
        return 1
    fi
}

# Prints what the steps add up to, and answers whether none failed.
summed() {
    echo "$passed passed, $failed failed"
    [ "$failed" -eq 0 ]
}

# Ends with a message, and a log's last lines.
give_up() {
    echo "$(basename "$0"): $1" >&2
    [ -f "${2:-}" ] && tail -n 40 "$2" >&2
    exit 2
}

# Answers whether a Debian package is installed.
installed() {
    dpkg-query -W -f '${Status}' "$1" 2>/dev/null | grep -q 'install ok installed'
}

# Installs Debian's packages that are missing; each argument is COMMAND, COMMAND:PACKAGE,PACKAGE.. where they have
# other names, or :PACKAGE without a command.
need() {
    local each packages missing=() log
    for each in "$@"; do
        IFS=, read -ra packages <<<"${each#*:}"
        if [[ $each == :* ]]; then installed "${packages[@]}"; else command -v "${each%%:*}" >/dev/null; fi || missing+=("${packages[@]}")
    done
    [ ${#missing[@]} -eq 0 ] && return 0
    echo "installing ${missing[*]}" >&2
    log=$(mktemp)
    { apt-get update -qq && DEBIAN_FRONTEND=noninteractive apt-get install -y -qq --no-install-recommends "${missing[@]}"; } \
        >"$log" 2>&1 </dev/null || give_up "apt-get could not install ${missing[*]}" "$log"
}

# Answers whether a file is there and nothing that the prover reads, and none of the further files, is newer: is_fresh
# FILE OTHER..
is_fresh() {
    [ -f "$1" ] && [ -z "$(find "$root/crates.txt" "$root"/crates/*/{src,specs,proofs} "${@:2}" -newer "$1" -print -quit)" ]
}

# Has rt make a file that isn't fresh, out of a crate's folder: made FILE CRATE WORD.., which leaves it in out/ there
made() {
    local file=$1 crate=$root/crates/$2 log began
    shift 2
    is_fresh "$file" && return 0
    command -v rt >/dev/null || give_up "there is no rt to make $file with"
    log=$(mktemp)
    began=$(date +@%s.%N)
    (cd "$crate" && rt "$@") >"$log" 2>&1 </dev/null || give_up "rt $* did not succeed in $crate" "$log"
    rm -f "$log"
    mkdir -p "$(dirname "$file")"
    cp "$crate/out/$(basename "$file")" "$file" || give_up "rt $* left no $(basename "$file") in $crate/out"
    touch -d "$began" "$file"
}

# Has the archive proved and written, and what links it compiled for x86-64; one that SALTKERNEL_LIB_DIR names is taken
# as it is.
need_archive() {
    compile_for_x86_64
    if [ -n "${SALTKERNEL_LIB_DIR:-}" ]; then
        [ -f "$archive" ] || give_up "SALTKERNEL_LIB_DIR names no folder with libsaltkernel.a"
    else
        made "$archive" saltkernel lib
    fi
}

# Has a program proved and built, to be run as "${emulator[@]}" PROGRAM: need_program NAME. What rt run makes it then
# runs too, on an empty input.
need_program() {
    need_emulator
    made "$root/target/bin/$1" "$1" run
}

# Compiles C files to target/tests/NAME and links the archive: compile_c NAME FILE..
compile_c() {
    local name=$1 log=$out/$1.log
    shift
    "$cc" "${c_flags[@]}" -o "$out/$name" "$@" "$archive" >"$log" 2>&1 || give_up "$name did not compile" "$log"
}

# Runs cargo on rust/, with its files in target/rust; a warning fails it.
in_rust() {
    (cd "$root/rust" && RUSTFLAGS="-D warnings" CARGO_TARGET_DIR="$root/target/rust" cargo "$@")
}
