#!/usr/bin/env bash
# The power goes inside a tidying, in the erase of a block, its 8th change, and leaves the block filled with FCh.
. "$(dirname "${BASH_SOURCE[0]}")/records.sh"

start 00
write_sector 00 0 11
write_sector 00 0 22
arm 8 1 FC
tidy
restore
start 00
read_sector 00 0
