# For scripts at the top of the repository to source: the port as static libraries.

# Sets `lib` to a folder that has libNAME.a of each NAME. It is PORT_LIB where that is set, whose libraries the caller
# vouches for; else target/staticlib, where bindings/library proves what is missing or no longer proved. The prover's
# output is shown only if that fails.
get_library() { # NAME..
    local name log=target/library.log
    lib=${PORT_LIB:-target/staticlib}
    mkdir -p target
    for name; do
        if [ -z "${PORT_LIB:-}" ] && ! bindings/library "$name" >"$log" 2>&1; then
            cat "$log" >&2
            echo "error: there is no proved lib$name.a" >&2
            return 1
        fi
        if [ ! -f "$lib/lib$name.a" ]; then
            echo "error: $lib/lib$name.a is missing" >&2
            return 1
        fi
    done
}
