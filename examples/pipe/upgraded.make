#!/usr/bin/env bash
# The handover in version 2 goes to check, which answers as for version 1.
"$1" upgrade < ../handover/handover.stn
