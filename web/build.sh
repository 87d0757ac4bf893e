#!/usr/bin/env bash
# Builds the program for the page: web/module.js, which holds a WebAssembly module as text. A module of these sources
# is left as it is.
# usage: web/build.sh [--if-proved | --over CHECKOUT]
# It first has `rt lib` prove and build the crate nys_page, which takes some minutes where the libraries below it are
# there, and hours where nothing is. With --if-proved it builds only where `rt lib` has built that of these sources
# before, which takes a minute; else it takes an older module away, and says so. With --over CHECKOUT the libraries
# below nys_page are those that were proved and built in another checkout, whose sources of them have to be the same;
# only nys_page itself is proved here.
#
# rattle builds no wasm64 module of a crate that uses the heap of the C library. So the crate nys_page is proved
# and built for x86-64, and the LLVM module that rattle then hands to clang is kept: by a toolchain like the kit's,
# but with a clang that copies what it is given. web/retarget.py makes of it what rattle writes for wasm64; clang
# compiles that and web/heap.c, and rattle-link links both. No proof covers what is done here behind rattle.
set -euo pipefail
cd "$(dirname "$0")/.."
web=$PWD/web
crate=nys_page
exports=(nysiad_answer)
# A machine of the most levels needs a quarter of it (scripts/sizes.py, where the program runs natively).
stack=4194304

# Nothing of these sources is newer than a file.
is_current() {
  [ -f "$1" ] && [ -z "$(find crates.txt crates/*/{src,specs,proofs} "${@:2}" -newer "$1" -print -quit 2>/dev/null)" ]
}

if is_current web/module.js web/build.sh web/retarget.py web/heap.c; then
  echo "module.js: as it was built before"
  exit 0
fi
over=..
if [ "${1:-}" = --over ]; then over=$(cd "$2/crates" && pwd); fi
if [ "${1:-}" = --if-proved ] && ! is_current "crates/$crate/out/lib$crate.a"; then
  rm -f web/module.js
  echo "module.js: not built, since nys_page of these sources wasn't built here before (web/build.sh does it)"
  exit 0
fi

kit=$(dirname "$(rt doc)")
tools=$kit/toolchain
room=$(mktemp -d)
trap 'rm -rf "$room"' EXIT

# Runs a command, and shows what it printed only where it fails.
quietly() {
  "$@" >"$room/printed" 2>&1 || { cat "$room/printed" >&2; exit 1; }
}

# The crate, and what it stands on, proved; of libraries from elsewhere the sources are compared.
cd "crates/$crate"
if [ "$over" = .. ]; then
  quietly rt lib
else
  for built in "$over"/*/out/rlib; do
    name=$(basename "${built%/out/rlib}")
    [ "$name" != "$crate" ] && [ -d "../$name" ] || continue
    for part in src specs proofs; do
      [ ! -d "../$name/$part" ] || quietly diff -rq "../$name/$part" "$over/$name/$part"
    done
    [ -z "$(find "$over/$name"/{src,specs,proofs} -newer "$built" -print -quit 2>/dev/null)" ] ||
      { echo "module.js: $over/$name was changed after it was built" >&2; exit 1; }
  done
fi

# rattle clears the environment, so the folder is written into this clang.
mkdir -p "$room/tools/bin"
ln -s "$tools/lib" "$room/tools/lib"
ln -s "$tools"/bin/* "$room/tools/bin/"
rm "$room/tools/bin/clang"
cat >"$room/tools/bin/clang" <<END
#!/bin/sh
[ -f module.bc ] && cp module.bc '$room/module.bc'
exec '$tools/bin/clang' "\$@"
END
chmod +x "$room/tools/bin/clang"

# What `rt lib` called, but with that toolchain: it takes up what was proved. The libraries are those of the crate's line.
libraries=(--extern "std=$kit/rlibs/std.rlib" -L "dependency=$kit/rlibs")
for built in "$over"/*/out/rlib; do libraries+=(-L "dependency=$built"); done
for name in $(sed -n "s/^$crate staticlib: *//p" ../../crates.txt); do
  libraries+=(--extern "$name=$over/$name/out/rlib/$name.rlib")
done
quietly "$kit/bin/rattle" build --crate-name "$crate" src/lib.rt "${libraries[@]}" \
  --antt-project "$kit/rattle/logic/antt-project.json" --logic-built "$kit/logic_built" --incremental out/incremental \
  --jobs 1 --crate-type staticlib --backend llvm --toolchain "$room/tools" -o "$room/library.a"

clang=$tools/bin/clang
"$clang" --target=x86_64-unknown-linux-gnu -S -emit-llvm -Xclang -disable-llvm-passes -x ir "$room/module.bc" -o "$room/native.ll"
"$web/retarget.py" "$room/native.ll" "$room/wasm.ll" "${exports[@]}"

# The flags by which rattle has clang compile for wasm64, then those for C.
wasm=(--target=wasm64-unknown-unknown -mcpu=lime1 --no-default-config -Werror -ffunction-sections -fdata-sections -c)
"$clang" "${wasm[@]}" -mllvm -expand-div-rem-bits=64 -mllvm -expand-fp-convert-bits=64 -mllvm -trap-unreachable \
  -mllvm -no-x86-call-frame-opt -mllvm -disable-machine-licm -mllvm -disable-postra-machine-licm \
  -mllvm -sink-common-insts=false -no-canonical-prefixes -fintegrated-cc1 -fno-crash-diagnostics \
  -O3 -x ir "$room/wasm.ll" -o "$room/program.o"
"$clang" "${wasm[@]}" -Wall -Wextra -O2 -ffreestanding -fno-builtin -nostdinc "$web/heap.c" -o "$room/heap.o"
"$tools/bin/llvm-ar" rcs "$room/page.a" "$room/program.o" "$room/heap.o"
quietly "$kit/bin/rattle-link" --target wasm64-unknown-unknown --toolchain "$tools" --stack "$stack" \
  -o "$room/module.wasm" "$room/page.a"

# A page that is opened as a file may load no module, but it may load a script.
{
  printf '// Made by web/build.sh.\n"use strict";\n\nconst MODULE = "'
  base64 -w0 "$room/module.wasm"
  printf '";\n'
} >"$room/module.js"
mv "$room/module.js" "$web/module.js"
echo "module.js: a module of $(stat -c %s "$room/module.wasm") bytes"
