# Builds the oracle twice and the port's libraries; sourced at the top of the repository by a script
# that has set `build`, the folder for all that is built. Sets `oracles` and `linked`, rustc's
# arguments for the first and for both. Where `oracle_alone` is set, the libraries are left out.
here=tests/differential
source tests/library.sh
oracle=${ORACLE_SRC:-../shared/docs/src}/src/segment_cache.rs

if [ ! -f "$oracle" ]; then
    echo "oracle source not found at $oracle: skipped"
    exit 0
fi

# A log is shown only where the step failed.
step() { # NAME COMMAND..
    local name=$1
    shift
    if ! "$@" >"$build/$name.log" 2>&1; then
        cat "$build/$name.log"
        echo "$build: $name failed" >&2
        exit 1
    fi
}

compile() { # NAME ARGUMENTS..
    local name=$1
    shift
    step "$name" rustc --edition 2024 -O -C codegen-units=1 --crate-name "$name" --out-dir "$build" "$@"
}

# The source goes into the build unchanged, with the accessors behind it.
rm -rf "$build"
mkdir -p "$build/oracle"
cp "$here/oracle/oracle.rs" "$build/oracle/oracle.rs"
cat "$oracle" "$here"/oracle/access{,_index,_sets,_rebuilds}.rs >"$build/oracle/segment_cache.rs"

# As a release build, and once more with the short segment target that it has in its own tests.
release=(--crate-type rlib -C overflow-checks=off -C debug-assertions=off -A warnings)
compile oracle_large "${release[@]}" "$build/oracle/oracle.rs"
compile oracle_small "${release[@]}" -A explicit_builtin_cfgs_in_flags --cfg test "$build/oracle/oracle.rs"

lib=
if [ -z "${oracle_alone:-}" ]; then
    get_library test_exports capi
fi

oracles=(
    --extern "oracle_large=$build/liboracle_large.rlib"
    --extern "oracle_small=$build/liboracle_small.rlib"
)
linked=(
    "${oracles[@]}"
    -L "native=$lib" -l static=test_exports -l static=capi
)
