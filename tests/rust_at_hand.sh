#!/bin/sh
# rust_at_hand.sh COMMAND..: runs a comparison with the Rust where its source, rustc and patch are at hand, and says plainly when they are not.
# The source is looked for at ../shared/docs/src, or where LC3_SRC says. With CI=true their absence is a failure.
set -eu
src=${LC3_SRC:-../shared/docs/src}
missing=''
[ -f "$src/src/tables/band_index_tables.rs" ] || missing="the Rust source (looked in $src; set LC3_SRC)"
for tool in rustc patch; do
    command -v $tool >/dev/null || missing="${missing:+$missing and }$tool (Debian package $tool)"
done
[ -n "$missing" ] || exec "$@"
echo "not compared with the Rust: missing $missing"
[ "${CI:-}" != true ]
