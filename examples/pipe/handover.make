#!/usr/bin/env bash
# The handover with its own certificate behind it: certify writes it, verify reads both.
cat ../handover/handover.stn
"$1" certify < ../handover/handover.stn
