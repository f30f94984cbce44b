#!/bin/sh
# Recordings mended by the host's call, beside a plain Rust program: sh bench/mend.sh
exec "$(dirname "$0")/run" "$@" mend host_c
