#!/usr/bin/env bash
# A network has at most 8,192 points with z. With 8,191 there, an act, which has two, finds no room.
echo '{"mastn":2,"horizon":10,"agents":[{"name":"x","points":['
seq -f '"p%.0f",' 8190
echo '{"act":"last","low":1,"high":2}]}],"arcs":[]}'
