#!/usr/bin/env bash
# 8,192 points with z, as many as there may be, in one chain of bounds.
echo 'mastn 2'
echo 'horizon 10000'
echo 'agent x'
seq -f 'point x p%.0f' 8191
seq -f '%.0f' 8190 | awk '{ print "bound p" $1 " p" $1 + 1 " 0 1" }'
echo 'end'
