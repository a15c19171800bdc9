# Sourced by the commands: the kit that is pinned, the Rust that ours is held to, and the program that runs both.
. tools/library.sh

# The folder of poulpy's files, at their paths in its repository.
POULPY_SRC=$(realpath -m "${POULPY_SRC:-../shared/docs/src}")
export POULPY_SRC

# Names the kit where it is not the pinned one.
other_kit() {
    local kit
    kit=$(rt version 2>/dev/null)
    [ "$kit" = "$(cat KIT)" ] || echo "another kit: this is '${kit:-none}', and the proofs were made with '$(cat KIT)'"
}

reference_at_hand() {
    [ -d "$POULPY_SRC/poulpy-core" ]
}

reference_unchanged() {
    local sums
    sums=$(realpath harness/reference.sha256)
    (cd "$POULPY_SRC" && sha256sum --quiet --check "$sums")
}

# The proved library, and over it the program harness/target/release/beside.
build_beside() {
    build_library && cargo build --manifest-path harness/Cargo.toml --offline --locked --release --quiet
}
