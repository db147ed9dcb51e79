#!/usr/bin/env bash
# The arcs of acts count: two acts have four, and the 65,533rd `arc` line has no room.
echo 'mastn 2'
echo 'horizon 10'
echo 'agent x'
echo 'act x p 1 2'
echo 'act x q 1 2'
yes 'arc p.s q.s 5' | head -65533
echo 'end'
