#!/bin/sh
# Makes the lists and outputs of test_steps, test_leaves, test_long_run, test_cpm, test_chain and test_archive again from
# rules.py and archives.py, which are written from documents 01 and 02 and call nothing of the library, and compares them
# with the crates' files. Needs Debian's python3.
set -eu
here=$(cd "$(dirname "$0")" && pwd)
crates=$here/../../crates
made=$(mktemp -d)
trap 'rm -rf "$made"' EXIT
export PYTHONDONTWRITEBYTECODE=1
mkdir "$made/test_leaves"
python3 "$here/test_leaves.py" > "$made/test_leaves/stdout"
for program in test_steps test_long_run test_cpm test_chain test_archive; do
    mkdir "$made/$program"
    python3 "$here/$program.py" "$made/$program"
done
for f in test_leaves/stdout test_steps/stdin test_steps/stdout test_long_run/stdin test_long_run/stdout test_cpm/stdin \
    test_cpm/stdout test_chain/stdin test_chain/stdout test_archive/stdin test_archive/stdout; do
    cmp "$made/$f" "$crates/$f"
done
echo "11 files as made"
