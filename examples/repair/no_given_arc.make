#!/usr/bin/env bash
cat ../acts/too_short.stn
