# shellcheck shell=bash
# What this repository's bash scripts share: . "$(dirname "$(readlink -f "$0")")/../tools/common.sh"
#
# It sets root to the repository's folder and CC to the C compiler. With --help a script prints the comment that it begins
# with. The caller's settings for git are left out, as a hook has them: GIT_DIR would name another repository.
set -euo pipefail
unset "${!GIT_@}" CDPATH
root=$(cd "${BASH_SOURCE[0]%/*}/.." && pwd -P)
CC=${CC:-cc}
. "$root/tools/released"
case ${1:-} in
  -h | --help) sed '1d; /^[^#]/,$d; /^$/,$d; s/^# \{0,1\}//' "$0"; exit ;;
esac

# Ends the script: fail TEXT [STATUS]
fail() {
  local script
  script=$(readlink -f "$0")
  echo "${script#"$root"/}: $1" >&2
  exit "${2:-1}"
}

# Makes the folder work, which is removed when the script ends.
make_work() {
  work=$(mktemp -d)
  trap 'rm -rf "$work"' EXIT
}

# Sets version, major, minor and patch to those of a header, bindings/szg.h by default.
read_version() {
  version=$(sed -n 's/^#define SZG_VERSION "\(.*\)"$/\1/p' "${1:-$root/bindings/szg.h}")
  # shellcheck disable=SC2034 # the scripts use them
  IFS=. read -r major minor patch <<<"$version"
}

# Prints the path of the program: PROGRAM if it is set; the released one if none is built and the sources are the release's;
# else the one that is built here, first of all if it is missing or older than its sources.
find_program() {
  local built=$root/crates/szg_tool/out/szg_tool
  if [ -n "${PROGRAM:-}" ]; then
    [ -x "$PROGRAM" ] || fail "PROGRAM is $PROGRAM, which can't be run" 2
    echo "$PROGRAM"
  elif [ ! -x "$built" ] && is_released && released_program; then
    return
  else
    "$root/tools/build" szg_tool >&2
    echo "$built"
  fi
}

# Sets library to LIBRARY, a folder with libszg.a, or links one in the folder work.
find_library() {
  library=${LIBRARY:-$work/library}
  [ -n "${LIBRARY:-}" ] || "$root/tools/link_library" "$library"
}

# Sets fathom to the compiler's words for Fathom's library, Debian's libfathom-dev; to none where it isn't installed.
find_fathom() {
  fathom=()
  if echo '#include <tbprobe.h>' | "$CC" -E - >/dev/null 2>&1; then
    fathom=(-DFATHOM -lfathom)
  else
    echo "Fathom isn't installed (libfathom-dev): it is left out"
  fi
}

# Sets bench to the static libraries for a program that calls szg_bench, and builds that
find_bench() {
  "$root/tools/build" szg_bench
  bench=("$root/crates/szg_bench/out/libszg_bench.a" "${KIT:-$(dirname "$(rt doc)")}/c/liblibc_c.a")
}

# Compiles a program of bench/ or checks/c with the C library of find_library: compile_with_library SOURCE [WORD..]
compile_with_library() {
  "$CC" -O2 -march=x86-64-v2 -Wall -Wextra -Werror -I"$root/bindings" -o "$work/$(basename "$1" .c)" "$root/$1" "$library/libszg.a" "${@:2}"
}

# Builds the Python package's wheel in a folder, without a download; the same input gives the same bytes: build_wheel FOLDER
# The library in it is SZG_LIBRARY, or what tools/link_library links. Sets python.
build_wheel() {
  local package=$root/bindings/python log
  find_python setuptools, pip, wheel
  rm -rf "$package/build" "$package/LICENSE" "$package"/src/*.egg-info
  log=$(umask 022 && SOURCE_DATE_EPOCH=315532800 "$python" -m pip wheel -q --no-build-isolation --no-deps --no-index -w "$1" "$package" 2>&1) || fail "the wheel is not built: $log"
  rm -rf "$package/build" "$package/LICENSE" "$package"/src/*.egg-info
}

# Sets python to PYTHON, or to the first python3 with these modules: find_python MODULE, MODULE..
find_python() {
  for python in ${PYTHON:-python3 /usr/bin/python3}; do
    "$python" -W ignore -c "import $*" 2>/dev/null && return
  done
  fail "it needs a Python with $*"
}
