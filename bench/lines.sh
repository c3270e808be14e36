#!/bin/sh
# How long one core takes to write the line of a sample into memory, 64 lines in one text. Each has another stamp and interval than
# the one before it, so the whole line is formed anew but for its label, name, code and texts. A run prints lines in texts of some
# 16 KiB. At most 130 ns is the aim.
# Usage: bench/lines.sh [ROUNDS]
set -eu
cd "$(dirname "$0")/.."
. bench/least.sh
rounds=${1:-20}
each line_cases 'plan {"type":"TestPlan","children":[{"type":"ThreadGroup","name":"TG","children":[{"type":"Script","name":"A","props":{"replies":[{}]}}]}]}' \
    '0|0|1234567|12|0|200|OK|true||345' "a line"
