#!/bin/sh
# Line, Sound, Pack, whole frames, instants in floating point, and frames of every format with 1, 8 and 32 fingerprints through a session, Rattle against plain
# Rust: sh bench/session.sh
exec "$(dirname "$0")/run" session bench_session
