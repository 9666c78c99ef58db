# Completion for norbd in fish. Copy this file to ~/.config/fish/completions, or for all users to
# /usr/share/fish/vendor_completions.d.

complete -c norbd -f
complete -c norbd -n __fish_use_subcommand -s h -l help -d 'Print help'
complete -c norbd -n __fish_use_subcommand -s V -l version -d 'Print the version'

# __norbd_command NAME DESCRIPTION
function __norbd_command
    set --local where '__fish_use_subcommand; or __fish_seen_subcommand_from help'
    complete -c norbd -n $where -a $argv[1] -d $argv[2]
end
__norbd_command chip 'Answer serprog for the chip in an image'
__norbd_command plain 'Serve a disk in memory over standard input and output'
__norbd_command format 'Make the file of a formatted chip'
__norbd_command script 'Run a script of events on a chip in memory'
__norbd_command serve 'Serve the chip in an image to NBD clients'
__norbd_command status 'Say what a server does'
__norbd_command check 'Say whether an image would be served'
__norbd_command unprotect 'End the protection of a chip behind a programmer'
__norbd_command settle 'Erase all of a chip once and keep its disk'
__norbd_command show 'Draw the blocks of an image'
__norbd_command read 'Write the disk in an image to standard output'
__norbd_command write 'Replace the disk in an image by standard input'
__norbd_command rescue 'Write what can be told of the disk in a damaged image'
__norbd_command help 'Print the help of a command'
functions -e __norbd_command

# __norbd_option COMMANDS OPTION..: an option of these commands
function __norbd_option
    complete -c norbd -n "__fish_seen_subcommand_from $argv[1]" $argv[2..-1]
end
__norbd_option 'chip plain format script serve status check unprotect settle show read write rescue' -s h -l help -d 'Print help'
__norbd_option 'chip format serve status check unprotect settle show read write rescue' -F
__norbd_option 'chip serve' -l port -x -d 'Port to listen on'
__norbd_option 'chip serve' -l conns -x -d 'Connections in all, up to 64'
__norbd_option 'format script' -l kib -x -d 'Size in KiB, a multiple of 64 up to 16384'
__norbd_option plain -l sectors -x -d 'Sectors of the disk, up to 65536'
__norbd_option plain -l no-record -d 'Keep no row of a command'
__norbd_option format -l force -d 'Replace a file that holds something, too'
__norbd_option format -l yes -d 'Erase the chip behind a programmer'
__norbd_option serve -l bind -x -d 'IP address of the port'
__norbd_option serve -l unix -r -F -d 'Unix socket in place of a port'
__norbd_option serve -l record -d 'Keep a row of each command'
__norbd_option serve -l sync -x -a 'flush always never' -d 'When the image is synced'
__norbd_option serve -l tidy -x -a 'lazy eager' -d 'When blocks are tidied'
__norbd_option serve -l max-request -x -d 'Longest READ or WRITE in KiB, 64 to 32768'
__norbd_option serve -l read-only -d 'Refuse whatever would change the disk'
__norbd_option serve -s v -l verbose -d 'Tell of connections and refused requests'
__norbd_option serve -l trust -d 'Do not read back what was written to a chip behind a programmer'
__norbd_option serve -l status -r -F -d 'Unix socket at which norbd status asks'
__norbd_option 'serve write' -l firm -d 'Mount an image as a chip behind a programmer is'
__norbd_option check -l mend -d 'Replace an image that is not clean'
__norbd_option check -l against -r -F -d 'Older copy of the chip'
__norbd_option unprotect -l yes -d 'Clear bits 2 to 7 of status register 1'
__norbd_option 'status check' -l json -d 'Tell it in JSON'
__norbd_option 'read write' -l sectors -x -d 'From sector A on and before B, as A:B'
__norbd_option 'format serve check unprotect settle show read write' -l spi-hz -x -d 'Clock in Hz that a programmer is to set'
functions -e __norbd_option
