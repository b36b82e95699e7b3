#!/bin/sh
# Patch the published Rust and build the oracle (offline).
# Usage: build.sh [the folder docs/src]; without it $DOCS_SRC, or ../shared/docs/src of the repository's root.
set -e
here=$(cd "$(dirname "$0")" && pwd)
docs=$(cd "${1:-${DOCS_SRC:-$here/../../../shared/docs/src}}" && pwd)
cd "$here"
python3 patch.py "$docs"
cargo build --offline --quiet --release
cargo build --offline --quiet --profile plain
