#!/usr/bin/env bash
# A crew's day with its own certificate behind it: the arcs of acts are arcs like others.
cat ../crew/day.stn
"$1" certify < ../crew/day.stn
