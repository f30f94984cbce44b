#!/bin/sh
# Line sampling by the host's call and Line in every format, beside plain and specialised Rust and the floor: sh bench/video.sh [--before COMMIT]
exec "$(dirname "$0")/run" "$@" video bench_video host_c
