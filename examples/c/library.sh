#!/usr/bin/env bash
# library.sh FOLDER [frames|registry|unwind].. : makes FOLDER/libfovradus_frames.a of the proved crate
# frames_c, FOLDER/libfovradus_registry.a of registry_c and FOLDER/libfovradus_unwind.a of unwind_c,
# each with the kit's object over malloc, realloc and free. Each is linked alone; its header is in the
# crate's include/.
set -eu
folder=$(cd "${1:?a folder}" && pwd)
root=$(cd "$(dirname "$0")/../.." && pwd)
kit=$(dirname "$(rt doc)")
shift
[ $# -gt 0 ] || set -- frames registry unwind
make_library() {
  "$root/tools/static_library" "$1_c" "$folder/$1_c.a" > "$folder/$1_c.log" 2>&1 || {
    tail -20 "$folder/$1_c.log" >&2
    return 1
  }
  # names without a folder, since ar's scripts have no words for a space
  ln -sf "$kit/c/liblibc_c.a" "$folder/$1_c.kit.a"
  (cd "$folder" && rm -f "libfovradus_$1.a" && ar -M) <<SCRIPT
create libfovradus_$1.a
addlib $1_c.a
addlib $1_c.kit.a
save
end
SCRIPT
  rm "$folder/$1_c.a" "$folder/$1_c.kit.a"
}
made=()
for part in "$@"; do
  make_library "$part" &
  made+=($!)
done
status=0
for one in "${made[@]}"; do wait "$one" || status=1; done
exit $status
