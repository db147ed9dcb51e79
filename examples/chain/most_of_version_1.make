#!/usr/bin/env bash
# 4,096 points with z, as many as version 1 may have, without a bound.
echo 'mastn 1'
echo 'horizon 10'
echo 'agent x'
seq -f 'point x p%.0f' 4095
echo 'end'
