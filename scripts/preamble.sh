# Sourced first by every script that a person calls, before it goes to another folder: what the caller's shell has set does not change
# what is built, tested or printed. Paths are the caller's.
unset CDPATH # else cd goes elsewhere, and prints where
export LC_ALL=C # messages, and the order of names; a locale that is not installed is complained about by each program
unset CARGO_BUILD_TARGET # all is built in target/cargo/release, where it is run
CARGO_TARGET_DIR=$(cd "$(dirname "${BASH_SOURCE[0]}")/.." && pwd -P)/target/cargo
export CARGO_TARGET_DIR
for name in FDFA_LIBRARY FDFA_DRIVER TMPDIR; do
    [ -z "${!name:-}" ] || export "$name=$(realpath -m -- "${!name}")"
done
unset name
command -v cargo >/dev/null || PATH=$PATH:~/.cargo/bin # where cargo is if no shell has set its path
