#!/bin/sh
# Builds the library and the extension by build.sh, and runs the module's tests over the extension and over ctypes, and mypy if
# it is there.
set -eu
here=$(cd "$(dirname "$0")" && pwd)
root=$(cd "$here/../.." && pwd)
"$here/build.sh"
cd "$here"
if python3 -c 'import mypy' 2>/dev/null; then
    python3 -m mypy
fi
if [ -f kozhvadi/_fast.abi3.so ]; then
    python3 -m unittest discover -s tests -t .
fi
KOZHVADI_CTYPES=1 python3 -m unittest discover -s tests -t .
python3 -B "$root/tools/languages/compare.py" 5000
