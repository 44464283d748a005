# Sourced by the scripts of this folder: what they build with. All of it lies in target/compare; nothing is installed but gcc, cargo and
# rustc, from Debian's packages, where they are missing.
#   PASTURE_SRC   the folder that holds pasture-core/, igd-geo/pasture 1b0b39c18e; without it ../shared/docs/src beside the repository
set -euo pipefail
root=$(realpath "$(dirname "${BASH_SOURCE[0]}")/..")
built=$root/target/compare
mkdir -p "$built"
export PASTURE_SRC=${PASTURE_SRC:-$root/../shared/docs/src}
[ -d "$PASTURE_SRC/pasture-core" ] || { echo "no pasture-core/ in $PASTURE_SRC: PASTURE_SRC names the folder that holds it" >&2; exit 1; }
PASTURE_SRC=$(realpath "$PASTURE_SRC")
cd "$root"
export NAKVISK_LIB_DIR=$root/target/staticlib CARGO_HOME=$built/cargo-home CARGO_TARGET_DIR=$built/cargo CARGO_NET_OFFLINE=true
crates=$built/debian/usr/share/cargo/registry

# numbers WORD..: ends the script where a word is not a number.
numbers() {
  local word
  for word; do
    case $word in '' | *[!0-9]*) echo "$0: not a number: $word (--help says what to write)" >&2; exit 2 ;; esac
  done
}

# Runs a command; what it says is shown where it fails.
quietly() {
  "$@" > "$built/log.txt" 2>&1 || { cat "$built/log.txt" >&2; echo "failed: $*" >&2; exit "${unable:-1}"; }
}

# Status 3 where a package can't be had.
packages() {
  local missing=() unable=3
  command -v gcc > /dev/null || missing+=(gcc libc6-dev)
  command -v cargo > /dev/null || missing+=(cargo rustc)
  if [ ${#missing[@]} -gt 0 ]; then quietly apt-get update; quietly apt-get install -y "${missing[@]}"; fi
  if [ ! -d "$crates" ]; then
    rm -rf "$built/debian.new" && mkdir "$built/debian.new" && cd "$built/debian.new"
    local names=(librust-{num-traits,lazy-static,static-assertions,itertools,uuid,bytemuck,anyhow,autocfg,either}-dev)
    apt-get download "${names[@]}" > "$built/log.txt" 2>&1 || { quietly apt-get update; quietly apt-get download "${names[@]}"; }
    for d in *.deb; do dpkg -x "$d" .; done
    cd "$root" && mv "$built/debian.new" "$built/debian"
  fi
}

# The archive, unless there is one that is newer than every file that it is made of.
library() {
  local archive=target/staticlib/libnakvisk.a
  [ -e "$archive" ] && [ -z "$(find crates crates.txt -newer "$archive" -print -quit)" ] && return
  quietly crates/nakvisk_c/build
}

# rust PROFILE BIN: builds one program of this folder, or of the copy that `comparer` names, with the Rust that PASTURE_SRC holds.
rust() {
  quietly cargo build --manifest-path "${comparer:-$root/compare}/Cargo.toml" --profile "$1" --bin "$2" \
    --config 'source.crates-io.replace-with="debian"' --config "source.debian.directory=\"$crates\""
}
