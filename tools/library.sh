# Sourced by the commands: the proved library as an archive.

ARCHIVE=target/staticlib/libsibukyaran.a

# What the archive is made of: the kit, the list of crates and every source of them.
library_sources() {
    {
        rt version
        cat crates.txt
        find crates -name out -prune -o -type f \( -name '*.rt' -o -name '*.antt' \) -print0 | sort -z | xargs -0 sha256sum
    } | sha256sum
}

# Says which crates are proved while a proof goes on, and that it still does.
watch_proof() { # PID LOG
    local start=$SECONDS said=$SECONDS proved=0 now
    while kill -0 "$1" 2>/dev/null; do
        sleep 1
        now=$(grep -c '^logic=proved ' "$2")
        if [ "$now" -gt "$proved" ]; then
            awk '/^crate / { name = $2; sub(":", "", name) } /^logic=proved / { print "  " name " proved" }' "$2" |
                tail -n +$((proved + 1))
            proved=$now
            said=$SECONDS
        elif [ $((SECONDS - said)) -ge 30 ]; then
            echo "  still proving, $((SECONDS - start)) s so far"
            said=$SECONDS
        fi
    done
}

# The tool, rust/target/release/sibukyaran, or below CARGO_TARGET_DIR.
build_tool() {
    cargo build --manifest-path rust/Cargo.toml --offline --locked --release --quiet -p sibukyaran-tool
}

# Proves the library, over what earlier checks kept, and writes the archive, where its sources have changed.
build_library() {
    local sources log
    sources=$(library_sources)
    if [ -f "$ARCHIVE" ] && [ "$(cat target/staticlib/sources 2>/dev/null)" = "$sources" ]; then
        return
    fi
    echo "proving the library, which takes minutes where a crate has changed"
    log=$(mktemp)
    (cd crates/sibukyaran && exec rt lib) >"$log" 2>&1 &
    watch_proof $! "$log"
    if ! wait $!; then
        grep -vE '^(logic|statements|library|crate|axioms) |note:' "$log" | tail -n 40
        echo "the library is not proved; all that was said is in $log"
        return 1
    fi
    rm -f "$log"
    mkdir -p target/staticlib
    rm -f target/staticlib/sources
    cp crates/sibukyaran/out/libsibukyaran.a "$ARCHIVE" && echo "$sources" >target/staticlib/sources
}
