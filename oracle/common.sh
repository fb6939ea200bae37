# What run, store, bench and wrong share; each of them sources this file.

source "$(dirname "${BASH_SOURCE[0]}")/../tests/common.sh"
build=${ORION_SDR_BUILD:-$root/../shared/oracle/build}
out=$root/target/oracle
mkdir -p "$out"

# Says that orion-sdr is not there and what was therefore not done; answers whether it is there.
orion_at_hand() {
    [ -f "$build" ] && return 0
    echo "oracle: orion-sdr's Rust is not at hand (no $build): nothing was $1."
    return 1
}

# Compiles orion-sdr's own files into target/oracle/orion-MACHINE, from nothing where rustc is another than last time.
build_orion() {
    local version orion=$out/orion-$compiled_for log=$out/orion.log
    need rustc cc:gcc,libc6-dev :librust-num-complex-dev
    version=$(rustc --version)
    if [ "$(cat "$orion/rustc-version" 2>/dev/null)" != "$version" ]; then
        rm -rf "$orion"
        mkdir -p "$orion"
    fi
    "$build" "$orion" >"$log" 2>&1 || give_up "orion-sdr did not compile (it asks for Rust's edition 2024; this is $version)" "$log"
    echo "$version" >"$orion/rustc-version"
}

# Compiles oracle/src/$2.rs to target/oracle/$1, with the further arguments for rustc.
compile_as() {
    local made=$1 name=$2 orion=$out/orion-$compiled_for log=$out/$1.log
    shift 2
    rustc --edition 2021 -C opt-level=3 --crate-name "oracle_$name" -L dependency="$orion" \
        --extern orion_sdr="$orion/liborion_sdr.rlib" --extern num_complex="$orion/libnum_complex.rlib" \
        "$@" -o "$out/$made" "$root/oracle/src/$name.rs" >"$log" 2>&1 || give_up "oracle/src/$name.rs did not compile" "$log"
}

# Compiles oracle/src/$1.rs to target/oracle/$1, with the further arguments for rustc.
compile() {
    compile_as "$1" "$@"
}

# The arguments for rustc that link the port's static library.
with_saltkernel=(-L native="$(dirname "$archive")" -l static=saltkernel)
