# Read by bench/: where the Rattle toolchain's kit is, and its own clang, linker and C library.
# The reader has a function `die`, which says what is missing and ends.

rt=$(command -v rt) || die "the Rattle toolchain is missing: rt is not on the PATH"
home=$(dirname "$(dirname "$(readlink -f "$rt")")")
tools=$home/toolchain
machine=$(uname -m)
[ "$machine" = x86_64 ] || die "the Rattle toolchain and what it builds are for x86-64, and this machine is $machine"
[ -x "$tools/bin/clang" ] || die "the Rattle toolchain at $home has no clang"
