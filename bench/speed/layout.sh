#!/bin/bash
# Times the codecs of the disk, each beside a copy of as many bytes as it reads or writes in the same run of the program
# `measure_codecs`: encode and decode of each kind, and in a directory block of 400 names the search for the last of them. Run
# by hand.
#
# Each time is the least of 200 rounds of 200 calls, in which the calls and the copies take turns.
set -eu
top=$(cd "$(dirname "$0")/../.." && pwd)
"$top/bench/speed/program.py" measure_codecs
"$top/bench/speed/out/measure_codecs"
