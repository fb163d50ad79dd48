#!/usr/bin/env bash
# run.sh [FOLDER]: makes the library in a folder of its own, or in one that is named, builds own_stack
# over it and runs it.
set -eu
here=$(cd "$(dirname "$0")" && pwd)
folder=${1:-$(mktemp -d)}
"$here/library.sh" "$folder" frames
${CC:-cc} -std=gnu11 -O1 -g -Wall -Wextra -I"$here/../../crates/frames_c/include" \
  "$here/own_stack.c" "$folder/libfovradus_frames.a" -o "$folder/own_stack"
"$folder/own_stack"
