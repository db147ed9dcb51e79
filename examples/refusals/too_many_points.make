#!/usr/bin/env bash
# Version 1 has at most 4,096 points with z: the 4,096th `point` line has no room.
echo 'mastn 1'
echo 'horizon 10'
echo 'agent x'
seq -f 'point x p%.0f' 4097
echo 'end'
