#!/bin/bash
# Proves and builds both static libraries and puts them where the C samples and host/ look for them: target/staticlib.
set -euo pipefail
cd "$(dirname "$0")/.."
mkdir -p target/staticlib
for name in tight tight_file; do
    (cd "crates/$name" && rt lib)
    cp "crates/$name/out/lib$name.a" target/staticlib/
done
