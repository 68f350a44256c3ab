#!/bin/sh
# Runs the program in an example's folder, prints its report and status, and compares both with what has to come.
#
#   tools/run_example.sh PROGRAM examples/NAME
#
# The report is the folder's file `report`; its second line tells the status.
set -eu
[ $# -eq 2 ] || { echo "usage: tools/run_example.sh PROGRAM examples/NAME" >&2; exit 2; }
program=$(cd "$(dirname "$1")" && pwd)/$(basename "$1")
cd "$2"
out=$(mktemp)
trap 'rm -f "$out"' EXIT

case $(sed -n 2p report) in
  accepted) wanted=0 ;;
  rejected*) wanted=1 ;;
  unsupported*) wanted=2 ;;
  *) echo "$2/report: its second line tells no status" >&2; exit 1 ;;
esac
status=0
"$program" check > "$out" || status=$?
cat "$out"
echo "status $status"
cmp "$out" report >&2 || { echo "$2: the report isn't the one in $2/report" >&2; exit 1; }
[ "$status" -eq "$wanted" ] || { echo "$2: the status has to be $wanted" >&2; exit 1; }
