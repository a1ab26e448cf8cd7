# shellcheck shell=bash
# A sum that is the same as long as no source, no kit and no built file changed. The script ./wf reads this file, and fresh.py runs it.

# Prints a sum of the type, size, inode and times of the sources below the folder $1, of the kit, and of the built file $2. One of the times is
# that of the last change, which no program can set. Status 1 means that no sum could be made.
quick_sum() (
  export LC_ALL=C
  unset CDPATH
  cd -- "$1" || exit 1
  shopt -s nullglob
  set -o pipefail
  kit=$(type -P rt) && kit=$(readlink -f -- "$kit") && kit=${kit%/*/*}/KIT-ID
  find crates.txt HANDLES crates/*/src crates/*/specs crates/*/proofs "$2" ${kit:+"$kit"} -printf '%p %y %s %T@ %C@ %i\n' 2>/dev/null |
    sort | sha256sum
)

if [ "${BASH_SOURCE[0]}" = "$0" ]; then
  quick_sum "$1" "$2"
fi
