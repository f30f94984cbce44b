#!/bin/sh
# Transport packets written and read by the host's calls, beside a plain table-driven Rust program: sh bench/transport.sh [--before COMMIT]
exec "$(dirname "$0")/run" "$@" transport host_c
