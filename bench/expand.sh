#!/bin/sh
# How many times a second one core expands `/item?id=${id}&n=${__intSum(1,${n})}`, with two variables defined.
# Usage: bench/expand.sh [ROUNDS]
set -eu
cd "$(dirname "$0")/.."
. bench/least.sh
rounds=${1:-20}
each text_cases 'given id 42
given n 1
begin' '/item?id=${id}&n=${__intSum(1,${n})}' "an expansion"
