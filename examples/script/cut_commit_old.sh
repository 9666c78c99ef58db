#!/usr/bin/env bash
# The power goes inside the commit of a write, its fourth change, and leaves each bit of the commit as it was.
. "$(dirname "${BASH_SOURCE[0]}")/records.sh"

start 00
arm 4 1 00
write_sector 00 0 11
restore
start 00
read_sector 00 0
