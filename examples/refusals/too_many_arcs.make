#!/usr/bin/env bash
# 65,535 arcs, and then a `bound` line, both of whose arcs need room.
echo 'mastn 1'
echo 'horizon 10'
echo 'agent x'
echo 'point x p'
echo 'point x q'
yes 'arc p q 5' | head -65535
echo 'bound p q 0 5'
echo 'end'
