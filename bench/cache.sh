#!/usr/bin/env bash
# How long one access takes with 1, 8, 256 and 4,096 ways, over the same generated references.
#
#   bench/cache.sh [REFERENCES]        10,000,000 references, if no number is given
set -eu
CDPATH='' cd -P -- "$(dirname -- "$0")/../crates/measure"
exec rt run -- cache-times "${1:-10000000}"
