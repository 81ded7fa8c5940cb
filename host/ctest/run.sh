#!/bin/sh
# Builds and runs ctest.c as C11 and as C++ against libjoyce.a in the folder JOYCE_LIB. The proved library needs no other;
# JOYCE_LINK names what another archive needs.
set -eu
here=$(cd "$(dirname "$0")" && pwd)
lib=${JOYCE_LIB:-$here/../../target/staticlib}/libjoyce.a
out=$(mktemp -d)
trap 'rm -rf "$out"' EXIT
strict="-Wall -Wextra -Wpedantic -Wconversion -Werror"
# shellcheck disable=SC2086
${CC:-cc} -std=c11 $strict -I "$here/../../include" "$here/ctest.c" -o "$out/c" "$lib" ${JOYCE_LINK:-}
"$out/c"
# shellcheck disable=SC2086
${CXX:-c++} -x c++ -std=c++17 $strict -I "$here/../../include" "$here/ctest.c" -x none -o "$out/cpp" "$lib" ${JOYCE_LINK:-}
"$out/cpp"
