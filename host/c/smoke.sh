#!/bin/sh
# Builds and runs c/smoke.c with the archive (KAV_ARCHIVE names another).
set -eu
cd "$(dirname "$0")/.."
"${CC:-cc}" -std=c11 -Wall -Wextra -Werror -O2 -I. c/smoke.c "${KAV_ARCHIVE:-../target/staticlib/libabi.a}" -o c/smoke
c/smoke
