#!/bin/sh
# Builds the host's library and tests/host.c against it, plain and with the sanitizers, and runs both; then changes each constant of the header.
# Prints 'host: N checks passed' only if every check did.
set -eu
cd "$(dirname "$0")/.."
tools/need gcc "the C test"
tools/need python3 "the C test's tables"
build=target/host
mkdir -p "$build"
tools/library > "$build/log"
flags="-std=c11 -O1 -g -Wall -Wextra -Werror -I include"
archive=target/lib/liblipsync.a
# A host without a C library has to bring what the archive needs from outside: memcpy, and nothing more.
needs=$(nm -u "$archive" | sed -n 's/^ *U //p' | sort -u)
if [ "$needs" != memcpy ]; then
  echo "host: the archive needs from outside:" $needs >&2
  exit 1
fi
gcc $flags tests/host.c "$archive" -o "$build/plain"
plain=$("$build/plain")
gcc $flags -fsanitize=address,undefined -fno-sanitize-recover=all tests/host.c "$archive" -o "$build/sanitized"
sanitized=$("$build/sanitized")
[ "$plain" = "$sanitized" ]

# The meanings are those of the scripts' table; 1 is a format's alone here.
"$build/plain" meanings > "$build/meanings"
python3 -B - > "$build/tables" <<'END'
import sys
sys.path.insert(0, "tools")
import tables
calls = {number for call in ("sample", "read", "wrap", "unwrap", "stream", "unstream") for number in tables.NUMBERS[call]} | set(tables.MENDED)
words = {**tables.REFUSALS, 0: "accepted", 1: "no format of this number"}
for number in range(256):
    print(number, words[number] if number in calls else "no number of these calls")
END
diff "$build/tables" "$build/meanings"

echo "host: $plain checks passed"
tests/header-constants "$archive"
