#!/usr/bin/env bash
# A generated network goes to check: what follows its `end` line, a script, is not looked at.
"$1" gen 7 4
