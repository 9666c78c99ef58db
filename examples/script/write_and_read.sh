#!/usr/bin/env bash
# Sector 0 is written and read again; the connection goes.
. "$(dirname "${BASH_SOURCE[0]}")/records.sh"

start 00
write_sector 00 0 11
read_sector 00 0
gone 00
