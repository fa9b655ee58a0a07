# What pkg-config is told of the library for C and Python, for the scripts that read this file.

# Writes the description of hdminet_wire or hdminet, which is installed under a folder and has a version: describe NAME DIR VERSION
describe() {
  local what="The same, and an emulator of a living-room HDMI network"
  [ "$1" != hdminet_wire ] || what="Proved calls for frames of the HDMI CEC line, EDIDs, a receiver and a sender"
  cat << PC
prefix=$2
includedir=\${prefix}/include
libdir=\${prefix}/lib

Name: $1
Description: $what
Version: $3
Cflags: -I\${includedir}
Libs: -L\${libdir} -l$1
PC
}
