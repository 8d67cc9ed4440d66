# shellcheck shell=bash
# Runs a command of cargo on the package in FOLDER, from the repository's root. All that it writes goes to the folder of
# the same name in target/. HOME is left as it is, since rustup finds the compiler by it or, without it, by the account.
package_cargo() { # FOLDER PROFILE COMMAND ARGUMENT..
    local target=target/${1##*/}
    CARGO_HOME=$PWD/$target/cargo cargo "$3" --offline --locked --profile "$2" \
        --manifest-path "$1/Cargo.toml" --target-dir "$target" "${@:4}"
}
