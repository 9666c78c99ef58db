# Functions that print the records of a script; the examples beside this file read it. docs/SCRIPT.md has the format.
# CONNECTION and BYTE are two hexadecimal digits, BYTES are any number of them, with spaces where one likes; the other numbers are decimal.

bytes() { # BYTES
    local digits=${1// /}
    while [ -n "$digits" ]; do
        printf "\\x${digits:0:2}"
        digits=${digits:2}
    done
}

record() { # KIND CONNECTION BYTES: a record with its length
    local digits=${3// /}
    printf '%s' "$1"
    bytes "$2"
    bytes "$(printf '%08X' $((${#digits} / 2)))"
    bytes "$digits"
}

open() { record O "$1" ''; }     # CONNECTION
piece() { record P "$1" "$2"; }  # CONNECTION BYTES
gone() { record G "$1" ''; }     # CONNECTION
tidy() { record T FF ''; }
restore() { record R FF ''; }
arm() { record C FF "$(printf '%08X' "$1") 0$2 $3"; } # COUNT KIND BYTE: the mask

# A connection is opened, and begins the transmission: its flags, and the option GO with the name `flash`.
start() { # CONNECTION
    open "$1"
    piece "$1" '00000003'
    piece "$1" '49484156454F5054 00000007 0000000B 00000005 666C617368 0000'
}

# A request for one sector with the cookie 1; its payload, where it is a WRITE.
write_sector() { # CONNECTION SECTOR BYTE: the sector is filled with it
    local payload
    payload=$(printf "$3%.0s" {1..512})
    piece "$1" "25609513 0000 0001 0000000000000001 $(printf '%016X' $((512 * $2))) 00000200 $payload"
}

read_sector() { # CONNECTION SECTOR
    piece "$1" "25609513 0000 0000 0000000000000001 $(printf '%016X' $((512 * $2))) 00000200"
}
