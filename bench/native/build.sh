#!/bin/sh
# Builds the peers into OUT (bench/out unless named). Needs Debian's packages librust-serde-json-dev and
# librust-hex-dev.
set -eu
here=$(CDPATH= cd -- "$(dirname -- "$0")" && pwd)
out=${1:-$here/../out}
registry=$(dpkg -L librust-serde-json-dev | grep -m1 'registry$')
mkdir -p "$out/native/.cargo"
out=$(CDPATH= cd -- "$out" && pwd)
cp -r "$here/Cargo.toml" "$here/src" "$out/native/"
cat >"$out/native/.cargo/config.toml" <<TOML
[source.crates-io]
replace-with = "debian"
[source.debian]
directory = "$registry"
TOML
cd "$out/native"
cargo build --release --offline -q
cp target/release/native "$out/native_peer"
cp target/release/octets_peer "$out/octets_peer"
