# Completion of wf and of the script ./wf for bash. Made by tools/wfdev/build/completions.py.
_wf() {
  local current=${COMP_WORDS[COMP_CWORD]} first=${COMP_WORDS[1]-} words='' kind='' script='' reply
  local program='replay frames session uplink soak live help --version'
  local topics='replay frames session uplink soak live faults'
  [ ! -d "$(dirname -- "$1")/tools/wfdev" ] || script='build lib install uninstall dist sim explain timeline convert which'
  if [ "$COMP_CWORD" -eq 1 ]; then
    words="$program $script ${script:+--quiet}"
  elif [ "$first" = help ]; then
    words="$topics $script"
  else
    case $first in
      replay) words='--pcap'; [ -z "$script" ] || { words='--pcap --echo --json'; kind=-f; } ;;
      frames) [ -z "$script" ] || { kind=-f; } ;;
      session) [ -z "$script" ] || { kind=-f; } ;;
      uplink) [ -z "$script" ] || { kind=-f; } ;;
      build) words='--unproved' ;;
      lib) words='--unproved --kernel' ;;
      install) words='--unproved --library' kind=-d ;;
      uninstall) kind=-d ;;
      dist) words='--unproved' kind=-d ;;
      sim) kind=-f ;;
      explain) kind=-f ;;
      timeline) words='-o' kind=-f ;;
      convert) words='--fcs' kind=-f ;;
      which) words='--library' ;;
    esac
    case "$current" in -*) kind= ;; esac
  fi
  COMPREPLY=()
  while IFS= read -r reply; do
    [ -z "$reply" ] || COMPREPLY+=("$reply")
  done < <(compgen ${kind:+"$kind"} -W "$words" -- "$current")
}
complete -o filenames -F _wf wf
