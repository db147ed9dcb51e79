#!/usr/bin/env bash
# Version 2 has at most 8,192 points with z. With 8,191 there, an act, which has two, finds no room.
echo 'mastn 2'
echo 'horizon 10'
echo 'agent x'
seq -f 'point x p%.0f' 8190
echo 'act x last 1 2'
echo 'end'
