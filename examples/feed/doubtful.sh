#!/bin/sh
# Prints the entities that have an open entry in the side output of wdq, one a line:
#   sh doubtful.sh < output.txt
case ${1-} in -h | --help) sed -n '2,3s/^# \{0,1\}//p' "$0"; exit 0 ;; esac
awk '$1 == "#" && $2 == "side" && $4 == "open" { print $5 }' | sort -u
