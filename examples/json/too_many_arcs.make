#!/usr/bin/env bash
# 65,535 arcs, and then an item with two, which both need room.
echo '{"mastn":2,"horizon":10,"agents":[{"name":"x","points":["p","q"]}],"arcs":['
yes '{"from":"p","to":"q","bound":5},' | head -65535
echo '{"from":"p","to":"q","low":0,"high":5}]}'
