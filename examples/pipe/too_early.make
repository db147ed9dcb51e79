#!/usr/bin/env bash
# The same of a network that nobody can keep: its certificate is a negative cycle.
cat ../handover/too_early.stn
"$1" certify < ../handover/too_early.stn
