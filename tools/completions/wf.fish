# Completion of wf and of the script ./wf for fish. Made by tools/wfdev/build/completions.py.
function __wf_is_script
  set -l command (commandline -opc)[1]
  test -d (dirname -- "$command")/tools/wfdev
end
complete -c wf -f
complete -c wf -n __fish_use_subcommand -a 'replay' -d 'runs a trace of calls, and writes an answer line for each call'
complete -c wf -n '__fish_seen_subcommand_from replay' -a '--pcap'
complete -c wf -n __fish_use_subcommand -a 'frames' -d 'lists the packets of a capture file'
complete -c wf -n __fish_use_subcommand -a 'session' -d 'runs a script of ADDBA messages on both ends of an agreement'
complete -c wf -n __fish_use_subcommand -a 'uplink' -d 'runs a script of received frames, and lists those passed up'
complete -c wf -n __fish_use_subcommand -a 'soak' -d 'runs a random history of calls, and writes its summary'
complete -c wf -n __fish_use_subcommand -a 'live' -d 'runs threads that share a cell; writes their trace and summary'
complete -c wf -n __fish_use_subcommand -a 'help' -d 'describes a command, as wf COMMAND --help does'
complete -c wf -n __fish_use_subcommand -a '--version' -d 'writes the version'
complete -c wf -n '__fish_seen_subcommand_from --version' -a '--version'
complete -c wf -n '__wf_is_script; and __fish_seen_subcommand_from replay' -a '--echo'
complete -c wf -n '__wf_is_script; and __fish_seen_subcommand_from replay' -a '--json'
complete -c wf -n '__wf_is_script; and __fish_seen_subcommand_from replay' -F
complete -c wf -n '__wf_is_script; and __fish_seen_subcommand_from frames' -F
complete -c wf -n '__wf_is_script; and __fish_seen_subcommand_from session' -F
complete -c wf -n '__wf_is_script; and __fish_seen_subcommand_from uplink' -F
complete -c wf -n '__wf_is_script; and __fish_use_subcommand' -a 'build' -d 'proves and builds the program'
complete -c wf -n '__fish_seen_subcommand_from build' -a '--unproved'
complete -c wf -n '__wf_is_script; and __fish_use_subcommand' -a 'lib' -d 'proves and builds the static library for C (docs/C.md)'
complete -c wf -n '__fish_seen_subcommand_from lib' -a '--unproved'
complete -c wf -n '__fish_seen_subcommand_from lib' -a '--kernel'
complete -c wf -n '__wf_is_script; and __fish_use_subcommand' -a 'install' -d 'puts the built program and library in a folder, with manual pages'
complete -c wf -n '__fish_seen_subcommand_from install' -a '--unproved'
complete -c wf -n '__fish_seen_subcommand_from install' -a '--library'
complete -c wf -n '__fish_seen_subcommand_from install' -a '(__fish_complete_directories)'
complete -c wf -n '__wf_is_script; and __fish_use_subcommand' -a 'uninstall' -d 'removes what install PREFIX put there'
complete -c wf -n '__fish_seen_subcommand_from uninstall' -a '(__fish_complete_directories)'
complete -c wf -n '__wf_is_script; and __fish_use_subcommand' -a 'dist' -d 'makes a source archive and a binary one, with checksums'
complete -c wf -n '__fish_seen_subcommand_from dist' -a '--unproved'
complete -c wf -n '__fish_seen_subcommand_from dist' -a '(__fish_complete_directories)'
complete -c wf -n '__wf_is_script; and __fish_use_subcommand' -a 'sim' -d 'runs stations and flows in simulated time (docs/SIM.md)'
complete -c wf -n '__fish_seen_subcommand_from sim' -F
complete -c wf -n '__wf_is_script; and __fish_use_subcommand' -a 'explain' -d 'replays a trace, and explains each call in words'
complete -c wf -n '__fish_seen_subcommand_from explain' -F
complete -c wf -n '__wf_is_script; and __fish_use_subcommand' -a 'timeline' -d 'replays a trace, and draws its exchanges in time'
complete -c wf -n '__fish_seen_subcommand_from timeline' -a '-o'
complete -c wf -n '__fish_seen_subcommand_from timeline' -F
complete -c wf -n '__wf_is_script; and __fish_use_subcommand' -a 'convert' -d 'makes a capture that frames reads, without radiotap fields'
complete -c wf -n '__fish_seen_subcommand_from convert' -a '--fcs'
complete -c wf -n '__fish_seen_subcommand_from convert' -F
complete -c wf -n '__wf_is_script; and __fish_use_subcommand' -a 'which' -d 'prints which program answers, or which library is built'
complete -c wf -n '__fish_seen_subcommand_from which' -a '--library'
complete -c wf -n '__fish_seen_subcommand_from help' -a 'replay frames session uplink soak live faults'
