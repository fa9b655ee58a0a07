# What of hdminet works together outside of a checkout, for the scripts that read this file: the suite, the page, the tools for CEC
# programs, and the examples find each other and the program by their places, as in a checkout. tools/install puts such a folder
# under share/hdminet, tools/package into the package for Python.

# Lists the files of such a folder by their places in the checkout, one a line. The start script is home_start.
home_files() (
  cd "$1" || exit 1
  find tools/{suite,look,page,page-live,check-room,join-room,junit.py,cec-device,cec-adapter} tools/{cec,model/objects.py,model/wire.py} suite view examples tests/real-programs \
    release/view.html -type f ! -path '*/__pycache__/*' ! -name '*.pyc' | LC_ALL=C sort
)

# The start script of such a folder.
home_start() { printf '#!/bin/sh\nexec "$(dirname "$(readlink -f "$0")")/release/hdminet" "$@"\n'; }

# Lists the files of the Python module.
module_files() (
  cd "$1/python" || exit 1
  find hdminet -type f \( -name '*.py' -o -name py.typed \) | LC_ALL=C sort
)

# The name by which a program asks for the shared library as it starts: it has the major version.
soname() { local version; version=$(library_version "$1") && printf 'libhdminet.so.%s\n' "${version%%.*}"; }

# The version of the library's calls, by their header: `1.0`, and `0.0` of one that is older than that number.
library_version() {
  local number
  number=$(sed -n 's/^#define HDMINET_VERSION \([0-9]*\)$/\1/p' "$1/include/hdminet_wire.h")
  printf '%d.%d\n' $((${number:-0} / 1000)) $((${number:-0} % 1000))
}
