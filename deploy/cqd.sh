#!/bin/sh
# The command cqd of the Debian package: the program has neither --help nor --version.
lib=$(dirname "$(readlink -f "$0")")/../lib/cqd
case $1 in
    --help | -h) exec cat "$lib/usage.txt" ;;
    --version) exec sed 's/^/cqd: /' "$lib/PROOF" ;;
esac
exec "$lib/cqd" "$@"
