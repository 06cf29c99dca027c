#!/bin/bash
# How many times as long a check of an ACL takes as a check of nine mode bits, which a file system without ACLs makes,
# by the ACL's GROUP entries and the caller's groups; both take turns in one run of the program `measure_acls`. Run by hand.
set -eu
top=$(cd "$(dirname "$0")/../.." && pwd)
"$top/bench/speed/program.py" measure_acls
"$top/bench/speed/out/measure_acls"
