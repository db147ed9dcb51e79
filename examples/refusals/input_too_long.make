#!/usr/bin/env bash
# A network, and line feeds up to 16,777,217 bytes, one more than may be.
network=$'mastn 1\nhorizon 10\nend\n'
printf '%s' "$network"
head -c $((16777217 - ${#network})) /dev/zero | tr '\0' '\n'
