# Compiles and starts what links the proved library, by its archive for x86-64 or for Arm (scripts/archive). To be sourced from the
# repository's root; use_archive comes first.
# Code for the machine's own processor takes cargo, cc and c++. Code for the other one needs Debian's cross compilers, its Rust with the
# standard library for that processor, and its emulator; prepare installs them where they are missing.
source scripts/program.sh

# An archive of the caller's own, if one is named.
named_folder=${OYSTERKNOLL_LIB_DIR-}

# Takes the archive for a processor, x86_64 or aarch64, and the tools for it. Where the archive is, the crate's build script is told too.
use_archive() {
    local folder=target/staticlib architecture=amd64
    [ "$1" = x86_64 ] || folder=target/staticlib/$1 architecture=arm64
    OYSTERKNOLL_LIB_DIR=$(realpath -m "${named_folder:-$folder}")
    export OYSTERKNOLL_LIB_DIR
    archive=$OYSTERKNOLL_LIB_DIR/liboysterknoll.a
    if [ "$1" = "$(uname -m)" ]; then
        foreign= packages=() c=cc cxx=c++ emulator=() cargo_settings=() cargo_target=()
        return
    fi
    foreign=$architecture
    packages=("gcc-${1//_/-}-linux-gnu" "g++-${1//_/-}-linux-gnu" rustc-web "libstd-rust-web-dev:$foreign" qemu-user "libc6:$foreign")
    c=$1-linux-gnu-gcc cxx=$1-linux-gnu-g++ emulator=("qemu-$1")
    # Debian's Rust by its full name: a compiler that comes before it on the PATH has no standard library for the other processor.
    cargo_settings=(RUSTC=/usr/bin/rustc RUSTDOC=/usr/bin/rustdoc "CARGO_TARGET_${1^^}_UNKNOWN_LINUX_GNU_LINKER=$c"
        "CARGO_TARGET_${1^^}_UNKNOWN_LINUX_GNU_RUNNER=${emulator[0]}")
    cargo_target=(--target "$1-unknown-linux-gnu")
}

# Where rustup puts cargo, for a shell that has not been told.
command -v cargo >/dev/null || PATH=$PATH:${CARGO_HOME:-${HOME-}/.cargo}/bin

# Sees to it that the tools are there.
prepare() {
    command -v cargo >/dev/null || { echo "cargo is not on the PATH: the crate in rust/ needs it" >&2; return 1; }
    local package missing=()
    for package in "${packages[@]}"; do
        [[ $(dpkg-query -W -f '${db:Status-Abbrev}' "$package" 2>&1) == ii* ]] || missing+=("$package")
    done
    [ ${#missing[@]} -eq 0 ] || install_packages "${missing[@]}"
}

# Installs Debian packages, those for the other processor among them.
install_packages() {
    [ "$(id -u)" -eq 0 ] || { echo "missing on this machine, for root to install: $*" >&2; return 1; }
    quietly dpkg --add-architecture "$foreign" && quietly apt-get update && quietly apt-get install -y --no-install-recommends "$@"
}

# A command of cargo for the crate, such as: cargo_for_archive test --test api
cargo_for_archive() {
    (cd rust && env "${cargo_settings[@]}" cargo "$1" --offline --release "${cargo_target[@]}" "${@:2}")
}

# Compile as C99 and as C++ with every warning an error.
compile_c() {
    "$c" -x c -std=c99 -Wall -Wextra -Wpedantic -Werror -O2 -Iinclude "$@"
}

compile_cxx() {
    "$cxx" -x c++ -std=c++11 -Wall -Wextra -Wpedantic -Werror -O2 -Iinclude "$@"
}

# Starts a compiled program.
run_program() {
    "${emulator[@]}" "$@"
}
