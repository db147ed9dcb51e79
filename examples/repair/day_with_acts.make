#!/usr/bin/env bash
cat ../crew/road.stn
