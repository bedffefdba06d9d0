# Sourced by the scripts of this folder and by examples/check: where the kit is, and how a program is built and run with the kit's C library. It moves to the top of the repository.
cd "$(dirname "$(readlink -f "${BASH_SOURCE[0]}")")/.."
command -v rt >/dev/null || { echo "bench: the Rattle kit is not there: no 'rt' on the PATH" >&2; exit 2; }
kit=$(dirname "$(dirname "$(readlink -f "$(command -v rt)")")")
tools=$kit/toolchain
loader=("$tools/lib/ld-linux-x86-64.so.2" --library-path "$tools/lib")

# The C library copies and fills 2 KiB and more by `rep movsb` and `rep stosb`: one instruction to a processor, and one for each byte to valgrind.
# With the thresholds out of reach it does that by vector moves, which count the same everywhere. REP=1 leaves it as it is.
[ -n "${REP-}" ] || export GLIBC_TUNABLES=glibc.cpu.x86_rep_movsb_threshold=0x10000000:glibc.cpu.x86_rep_stosb_threshold=0x10000000

# run PROGRAM: standard input to standard output.
run() { "${loader[@]}" "$1"; }

# compile NAME: bench/NAME.c to target/bench/NAME, as the kit does it with its own programs, but for -O2.
compile() {
  mkdir -p target/bench
  "$tools/bin/clang" --target=x86_64-unknown-linux-gnu -march=x86-64 -O2 -Wall -Wextra -Werror -fPIE -ffunction-sections -fdata-sections -c "bench/$1.c" -o "target/bench/$1.o"
  "$kit/bin/rattle-link" --target x86_64-unknown-linux-gnu --toolchain "$tools" -o "target/bench/$1" "target/bench/$1.o" 2>/dev/null
}
