#!/bin/sh
# Instants a second through one audio fingerprint by either mixing rule, in blocks and in floating point, Rattle against plain Rust: sh bench/audio.sh
exec "$(dirname "$0")/run" audio bench_audio
