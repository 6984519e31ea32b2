#!/bin/sh
# Prints how many proofs run side by side: one for each processor, but no more than the free memory holds.

# MiB, measured from nothing: the largest proof, that of `rd_tests`, at its peak, and each other proof at that moment.
largest=7800 each=6700
free=$(awk '$1 == "MemAvailable:" { print int($2 / 1024) }' /proc/meminfo)
lanes=1
[ "$free" -le "$largest" ] || lanes=$(((free - largest) / each + 1))
[ "$lanes" -le "$(nproc)" ] || lanes=$(nproc)
echo "$lanes"
