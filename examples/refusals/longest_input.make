#!/usr/bin/env bash
# A network, and line feeds up to 16,777,216 bytes, as many as may be.
network=$'mastn 1\nhorizon 10\nend\n'
printf '%s' "$network"
head -c $((16777216 - ${#network})) /dev/zero | tr '\0' '\n'
