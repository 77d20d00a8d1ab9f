#!/bin/sh
# Fuzzes the library at its boundary to C with libFuzzer, guided by the coverage of the library's own
# code, every access of which AddressSanitizer checks. reference/setup.sh comes first; rt is on the
# PATH. The status is 0 where nothing was found.
#
#   reference/fuzz.sh                 for 30 minutes
#   reference/fuzz.sh 120             for so many seconds; further words go to libFuzzer
#   FUZZ_LEVEL=-O0 reference/fuzz.sh 120          the library not optimised: a counter for each block of its source
#   FUZZ_FAULT=short reference/fuzz.sh 60         each buffer shorter than told: must be found
#   FUZZ_FAULT=expectation reference/fuzz.sh 60   a wrong expectation: must be found
#
# The library is compiled once more from the LLVM module of which rt makes the archive: rt is run in a
# folder in which all is the toolchain's own, but a clang that keeps the module first.
set -eu

say() {
    echo "fuzz: $*"
}

# linked FOLDER NAME..: links all of the toolchain's FOLDER into $kit but these.
linked() {
    folder=$1
    shift
    mkdir -p "$kit/$folder"
    for there in "$home/$folder"/*; do
        case " $* " in
        *" $(basename "$there") "*) ;;
        *) ln -s "$there" "$kit/$folder/" ;;
        esac
    done
}

seconds=${1:-1800}
[ $# -eq 0 ] || shift
cd "$(dirname "$0")/.."
. reference/packages.sh
install clang-14 libclang-rt-14-dev

out=$PWD/target/fuzz
mkdir -p "$out/corpus" "$out/lib"
home=$(dirname "$(dirname "$(readlink -f "$(command -v rt)")")")
clang=$home/toolchain/bin/clang
kit=$(mktemp -d)
trap 'rm -rf "$kit"' EXIT
# rt takes for the toolchain's folder the one above its own file, which therefore is no link.
cp -r "$home/bin" "$kit/bin"
linked . bin toolchain
linked toolchain bin
linked toolchain/bin clang
cat >"$kit/toolchain/bin/clang" <<END
#!/bin/sh
[ ! -f module.bc ] || cp module.bc "$out/module.bc"
exec "$clang" "\$@"
END
chmod +x "$kit/toolchain/bin/clang"

say "proving and compiling the library"
archive=target/staticlib/libcolor_clusters.a
rm -f "$out/module.bc" "$out/before.a"
[ ! -f "$archive" ] || cp "$archive" "$out/before.a"
(cd crates/color_clusters_c && "$kit/bin/rt" lib) >"$out/log" || { tail -n 5 "$out/log"; exit 1; }
mkdir -p "${archive%/*}"
cp crates/color_clusters_c/out/libcolor_clusters_c.a "$archive"
if [ -f "$out/before.a" ]; then
    cmp "$archive" "$out/before.a" && say "its archive is the one that was there, byte for byte"
fi

say "compiling its module again, with coverage and AddressSanitizer"
"$clang" -S -emit-llvm -Xclang -disable-llvm-passes -x ir "$out/module.bc" -o "$out/module.ll"
# Every function has the attributes #0; those of this name are checked.
sed -i 's/^attributes #0 = { /&sanitize_address /' "$out/module.ll"
grep -q sanitize_address "$out/module.ll" || { say "the module has no attributes #0" >&2; exit 1; }
"$clang" -c "${FUZZ_LEVEL:--O1}" -fPIC -fsanitize=address,fuzzer-no-link -x ir "$out/module.ll" -o "$out/module.o"
rm -f "$out/lib/libcolor_clusters.a"
ar rcs "$out/lib/libcolor_clusters.a" "$out/module.o"

say "building"
cd reference
COLOR_CLUSTERS_LIB=$out/lib CARGO_TARGET_DIR=$out/cargo cargo rustc --release --offline --quiet --package archive \
    --bin fuzz --features fuzz -- -C linker=clang-14 -C link-arg=-fsanitize=address,fuzzer

say "fuzzing for $seconds s"
"$out/cargo/release/fuzz" -max_total_time="$seconds" -max_len=1024 -timeout=30 -print_final_stats=1 \
    -artifact_prefix="$out/" "$@" "$out/corpus"
