#!/bin/sh
# run.sh PROGRAM [FOLDER]: links hello.c over each C library that is here by the layouts of PROGRAM, runs it, and holds
# what it prints to what the system linker's link prints. Where there is no compiler it says so and ends with 0.
here=$(cd "$(dirname "$0")" && pwd)
PROGRAM=$(realpath "${1:?run.sh PROGRAM [FOLDER]}")
export PROGRAM
[ "$(uname -sm)" = "Linux x86_64" ] || { echo "no Linux on x86-64: no real program is linked"; exit 0; }
for tool in python3 gcc; do
    command -v $tool >/dev/null || { echo "no $tool: no real program is linked"; exit 0; }
done
folder=${2:-$(mktemp -d)}
[ "$2" ] || trap 'rm -rf "$folder"' EXIT
mkdir -p "$folder"
failed=0

# try NAME COMPILER: both links, what they print, the picture, and a report with wrong sizes.
try() {
    out=$folder/$1
    command -v "$2" >/dev/null || { echo "$1: left out, no $2 (Debian: gcc, musl-tools)"; return; }
    flags="-O1 -fno-pie -ffunction-sections -fdata-sections -pthread -static -no-pie"
    for object in FIRST SECOND; do
        $2 $flags -D$object -c "$here/hello.c" -o "$out.$object.o" ||
            { echo "$1: left out, $2 compiles no such program here"; return; }
    done
    $2 $flags "$out.FIRST.o" "$out.SECOND.o" -o "$out.theirs" 2>"$out.log" ||
        { echo "$1: left out, the system's linker has no such link here"; return; }
    "$out.theirs" word >"$out.expected"
    $2 -B "$here/" $flags "$out.FIRST.o" "$out.SECOND.o" -o "$out" && "$out" word >"$out.printed" &&
        cmp "$out.expected" "$out.printed" && python3 "$here/picture.py" "$out.report" "$out.json" >"$out.svg" &&
        sed 's/^\(live .*\) /\1 1/' "$out.report" >"$out.wrong" &&
        ! python3 "$here/write.py" "$out.json" "$out.wrong" "$out.none" 2>"$out.log" &&
        echo "$1: runs, and prints what the system's link prints ($(wc -l <"$out.printed") lines)" && return
    echo "$1: FAILED"
    failed=1
}

try musl musl-gcc
try glibc gcc
exit $failed
