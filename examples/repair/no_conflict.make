#!/usr/bin/env bash
cat ../handover/handover.stn
