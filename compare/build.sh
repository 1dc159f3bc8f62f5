#!/bin/sh
# usage: compare/build.sh [--other-sources] SOURCES OUT [PROGRAMS]
# Makes both sides of the comparison in the folder OUT. SOURCES is the folder of the original's Rust sources; they are taken byte for byte,
# and refused where they are not those of upstream.sha256, unless --other-sources allows them. PROGRAMS are those that are made of judge,
# bench and driver, all where none is told. The proved side is the program weights, the libraries libpelmetsavory.a and .so, and
# libexport.a of export.rt.txt; `driver` alone does not need it. README.md has what it needs.
set -eu
other=no
if [ "${1-}" = --other-sources ]; then other=yes; shift; fi
[ $# -eq 2 ] || [ $# -eq 3 ] || { sed -n 2,6p "$0"; exit 2; }
sources=$(cd "$1" && pwd)
mkdir -p "$2"
out=$(cd "$2" && pwd)
here=$(cd "$(dirname "$0")" && pwd)
repo=$(cd "$here/.." && pwd)
registry=${REGISTRY:-$(dpkg -L librust-rayon-dev | sed -n 's,/rayon-[^/]*$,,p' | head -n 1)}
modules='bzgrid common funcs grgrid tetrahedron_method triplet triplet_iw'
programs=${3:-judge bench driver}

# The Rust: whole files, and whether they are the ones that this project names.
rust=$out/rust
mkdir -p "$rust/src" "$rust/.cargo"
for m in $modules; do
  for f in "$sources/src--src--$m.rs.txt" "$sources/src--$m.rs.txt" "$sources/$m.rs.txt" "$sources/$m.rs"; do
    if [ -f "$f" ]; then break; fi
  done
  cp "$f" "$rust/src/$m.rs"
  cmp "$f" "$rust/src/$m.rs"
done
(cd "$rust/src" && for m in $modules; do sha256sum "$m.rs"; done) | tee "$out/sources.sha256"
upstream=$(sed -n 's/^# //p' "$here/upstream.sha256")
if grep -v '^#' "$here/upstream.sha256" | diff - "$out/sources.sha256" >&2; then
  echo "the sources are $upstream"
elif [ $other = yes ]; then
  echo "the sources are NOT $upstream; --other-sources allows them"
else
  echo "the sources are NOT $upstream (upstream.sha256); --other-sources would allow them" >&2
  exit 1
fi

# The proved side: the crates as they stand and one more that exports. What is proved already in OUT, or was checked elsewhere on this
# machine, is not proved again.
proved=$out/repo
prove() { (cd "$proved/crates/$1" && rt "$2") > "$out/rt.log" 2>&1 < "$repo/examples/small.study" || { tail -n 40 "$out/rt.log"; exit 1; }; }
make_proved() {
  mkdir -p "$proved/crates/export/src"
  tar -C "$repo" --exclude=out -cf - crates crates.txt | tar -C "$proved" -xf -
  cp "$here/export.rt.txt" "$proved/crates/export/src/lib.rt"
  echo 'export staticlib: ieee_laws tetrahedron_sort tetrahedron_method' >> "$proved/crates.txt"
  prove pelmetsavory lib
  prove export lib
  prove weights run
  lib=$proved/crates/pelmetsavory/out/libpelmetsavory.a
  gcc -shared -o "$out/libpelmetsavory.so" -Wl,--whole-archive "$lib" -Wl,--no-whole-archive
  cp "$proved/crates/weights/out/weights" "$lib" "$proved/crates/export/out/libexport.a" "$out/"
}
if [ "$programs" != driver ] && [ ! -f "$out/libexport.a" ]; then make_proved; fi

# One file of the Rust again, with ways to its private functions behind it.
cat "$rust/src/tetrahedron_method.rs" "$here/judge/probe.rs" > "$rust/src/probe.rs"
cp "$here/judge/reach.rs" "$rust/src/reach.rs"
{
  echo '#![allow(dead_code)]'
  for m in $modules probe reach; do echo "pub mod $m;"; done
} > "$rust/src/lib.rs"

folder_of() { case $1 in bench) echo "$repo/bench" ;; *) echo "$here/$1" ;; esac; }
{
  printf '[package]\nname = "phonors"\nversion = "0.0.0"\nedition = "2021"\npublish = false\n[dependencies]\nrayon = "1"\n'
  for p in $programs; do printf '[[bin]]\nname = "%s"\npath = "%s/main.rs"\n' "$p" "$(folder_of "$p")"; done
} > "$rust/Cargo.toml"
cat > "$rust/.cargo/config.toml" <<EOF
[source.crates-io]
replace-with = "local"
[source.local]
directory = "$registry"
[net]
offline = true
EOF
(cd "$rust" && RUSTFLAGS="-L native=$out" cargo build --release --offline --quiet --bins)
for p in $programs; do cp "$rust/target/release/$p" "$out/$p"; done
rustc --version
