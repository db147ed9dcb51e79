#!/usr/bin/env bash
# The chain with steps of exactly 1, its bounds listed from the last to the first.
echo 'mastn 2'
echo 'horizon 10000'
echo 'agent x'
seq -f 'point x p%.0f' 8191
seq -f '%.0f' 8190 -1 1 | awk '{ print "bound p" $1 " p" $1 + 1 " 1 1" }'
echo 'end'
