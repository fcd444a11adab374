#!/bin/sh
# tools/run_program.sh NAME: runs the built program target/bin/NAME, from standard input to standard output. Programs are for x86-64 Linux;
# on another processor an emulator runs them, where it is on the PATH.
set -eu
program=$(cd "$(dirname "$0")/.." && pwd)/target/bin/$1
[ "$(uname -m)" = x86_64 ] || exec qemu-x86_64 "$program"
exec "$program"
