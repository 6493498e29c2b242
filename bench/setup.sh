# Read by bench/run, bench/instructions and bench/handheld: where everything is, what is needed, and the proved library together with its LLVM module.
set -u

die() { printf 'bench: %s\n' "$*" >&2; exit 2; }

root=$(cd "$(dirname "$0")/.." && pwd -P) || exit 2
bench=$root/bench
build=$root/target/bench
mkdir -p "$build"

. "$root/kit.sh"

# A command or a file that a Debian package brings: root installs the package where it is missing, anyone else is told its name.
need() { # COMMAND-OR-FILE PACKAGE
    if command -v "$1" >/dev/null || [ -f "$1" ]; then return; fi
    [ "$(id -u)" = 0 ] && command -v apt-get >/dev/null || die "$1 is missing: install Debian's package $2"
    { apt-get install -y "$2" || { apt-get update && apt-get install -y "$2"; }; } >"$build/apt.log" 2>&1 || die "$1 is missing, and apt-get cannot install $2 ($build/apt.log says why)"
}

need python3 python3
need cc gcc

# A folder of links to the kit, but for a clang that also keeps the module that it is given, and the words that it is called with. It stands outside the
# repository, in which the gate wants no links, and rt itself is copied, since its kit is the folder that it lies in.
kit=$(mktemp -d) || die "there is no room for temporary files"
trap 'rm -rf "$kit"' EXIT
mkdir -p "$kit/kit/bin" "$kit/kit/toolchain/bin"
for part in "$home"/* "$home"/bin/* "$tools"/* "$tools"/bin/*; do
    place=$kit/kit${part#"$home"}
    [ -e "$place" ] || ln -s "$part" "$place"
done
rm "$kit/kit/bin/rt" "$kit/kit/bin/rtlib.py" "$kit/kit/toolchain/bin/clang"
cp "$home/bin/rt" "$home/bin/rtlib.py" "$kit/kit/bin/"
cat >"$kit/kit/toolchain/bin/clang" <<END
#!/bin/sh
printf '%s\n' "\$@" >'$build/clang.words'
cp module.bc '$build/module.bc' || exit 1
exec '$tools/bin/clang' "\$@"
END
chmod +x "$kit/kit/toolchain/bin/clang"

archive=$root/crates/handheld/out/libhandheld.a
rm -f "$build/module.bc" "$archive"
# By rt as it is first, which uses what other checks on this machine have proved.
for rt in rt "$kit/kit/bin/rt"; do
    (cd "$root/crates/handheld" && "$rt" lib) >"$build/library.log" 2>&1 </dev/null || { cat "$build/library.log" >&2; die "the library is not proved"; }
done
rm -rf "$kit"
[ -f "$build/module.bc" ] || die "the toolchain gave no LLVM module"
level=-O3
grep -qxe "$level" "$build/clang.words" || die "the toolchain compiles at another level than $level: bench/setup.sh is to say which"

python3 "$bench/workloads.py" >"$build/workloads.inc" || die "the workloads cannot be made"

# Compiled code that is not the library's; the headers of C itself are those of the machine's compiler.
warnings='-std=gnu99 -Wall -Wextra -Werror'
headers=$(cc -print-file-name=include)
