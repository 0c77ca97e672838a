#!/bin/sh
# Builds the static library for C over the libraries that are built:  archive.sh OUT.a
exec "$(dirname "$0")/../tools/static-library" dumarewhi_c x86_64-unknown-linux-gnu "$1"
