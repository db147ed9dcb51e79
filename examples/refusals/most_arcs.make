#!/usr/bin/env bash
# 65,536 arcs, as many as there may be.
echo 'mastn 1'
echo 'horizon 10'
echo 'agent x'
echo 'point x p'
echo 'point x q'
yes 'arc p q -5' | head -65536
echo 'end'
