# Sourced from the repository's root by the tests that are written in C: the compiler, the emulator where the machine isn't x86-64, and the
# archive, proved and built where its sources are newer. Sets cc, nm, static, emulator, archive and warnings, and, for `need`, the C++ compiler cxx and
# its package.
warnings="-std=c11 -O2 -Wall -Wextra -Wpedantic -Wconversion -Wshadow -Wstrict-prototypes -Werror"
archive=target/staticlib/libgarumbott.a
cc=gcc nm=nm static= emulator= cxx=g++ cxx_package=g++

fail() {
  echo "$(basename "$(dirname "$0")"): $1"
  exit 1
}

# Installs Debian packages where a command is missing.
need() { # COMMAND PACKAGE..
  command -v "$1" >/dev/null 2>&1 && return
  shift
  { apt-get install -y -qq "$@" || { apt-get update -qq && apt-get install -y -qq "$@"; }; } >/dev/null 2>&1 </dev/null || fail "can't install $*"
}

command -v rt >/dev/null || fail "the Rattle toolchain is missing: its command rt is not on the PATH"
if [ "$(uname -m)" = x86_64 ]; then
  need gcc gcc libc6-dev
else
  need x86_64-linux-gnu-gcc gcc-x86-64-linux-gnu libc6-dev-amd64-cross
  cc=x86_64-linux-gnu-gcc nm=x86_64-linux-gnu-nm static=-static cxx=x86_64-linux-gnu-g++ cxx_package=g++-x86-64-linux-gnu
  need qemu-x86_64 qemu-user
  emulator=qemu-x86_64
fi

# what rt makes, in folders out, is no source
if [ ! -e $archive ] || [ -n "$(find crates.txt crates -type d -name out -prune -o -type f -newer $archive -print -quit)" ]; then
  log=$(mktemp) || exit 1
  tools/archive >"$log" 2>&1 || { tail -n 5 "$log"; rm -f "$log"; fail "the library was not proved"; }
  rm -f "$log"
fi
