#!/usr/bin/env bash
# Compares what this repository and the crates that it ports read and write.
#
#     bench/upstream.sh [SEED [COUNT [FOLDER..]]]
#
# The crates are those of Debian's newest packages librust-netlink-packet-route-dev and librust-netlink-packet-core-dev, in a
# root of Debian sid that mmdebstrap makes in ~/.cache/linkcap, once (930 MB), with cargo and rustc; root is needed. The cases
# are the samples, the vectors, the captures (*.bin) in the folders, and COUNT link bodies (200000) that are made by SEED (1).
# It builds nothing else: crates/read_links/out/read_links has to be there. bench/run.sh times both programs. No gate runs this.
# The status is 1 if a difference falls under no rule of bench/upstream/rules.py, or if the comparison passes without one of
# them: with fewer bodies, a rare rule may have no case.
set -euo pipefail
cd "$(dirname "$0")/.."

seed=${1:-1}
count=${2:-200000}
folders=("${@:3}")
root=${XDG_CACHE_HOME:-$HOME/.cache}/linkcap/sid
ours=crates/read_links/out/read_links
skip() {
    echo "upstream: skipped: $1"
    exit 0
}
[ -x "$ours" ] || { echo "no program $ours: build it first" >&2; exit 1; }
command -v python3 > /dev/null || skip "no python3"
[ "$(id -u)" -eq 0 ] || skip "root is needed for chroot"
if [ ! -x "$root/usr/bin/cargo" ]; then
    command -v mmdebstrap > /dev/null || skip "no mmdebstrap, of the package mmdebstrap"
    mkdir -p "$(dirname "$root")"
    rm -rf "$root"
    mmdebstrap --quiet --aptopt='Acquire::Check-Valid-Until "false"' --variant=apt \
        --include=cargo,rustc,librust-netlink-packet-route-dev,librust-netlink-packet-core-dev sid "$root" ||
        { rm -rf "$root"; skip "the packages can't be had"; }
fi

mkdir -p "$root/build/.cargo"
cp -r bench/upstream/Cargo.toml bench/upstream/src "$root/build/"
printf '[source.crates-io]\nreplace-with = "debian"\n[source.debian]\ndirectory = "/usr/share/cargo/registry"\n' \
    > "$root/build/.cargo/config.toml"
chroot "$root" sh -c 'cd /build && CARGO_HOME=/build/.cargo-home cargo build --quiet --release --offline'
chroot "$root" dpkg-query -W -f '${Package} ${Version}\n' librust-netlink-packet-core-dev librust-netlink-packet-route-dev rustc

theirs=$root/build/target/release/read_links_upstream
bench/upstream/compare.py --seed "$seed" --count "$count" --each-rule "$ours" "$theirs" "${folders[@]}"
