#!/bin/sh
# The unproved program where it is installed, which tells so as ./fdref --unproved does, and what it waits for. It is
# bin/fdref of its prefix.
set -eu

# the folder of this file, also where it is called by a link
self=$0
while [ -h "$self" ]; do
    link=$(readlink "$self")
    case $link in
        /*) self=$link ;;
        *) self=$(dirname "$self")/$link ;;
    esac
done
prefix=$(CDPATH='' cd -- "$(dirname -- "$self")/.." && pwd)
unproved=$prefix/share/fdref/out/unproved

. "$unproved/telling.sh"
tell "this answer is not proved"
tell_fifos "$@"
tell_header "$@"
tell_later unproved "$@"
exec "$unproved/fdref" "$@"
