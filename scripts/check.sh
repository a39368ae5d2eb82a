#!/usr/bin/env bash
# The repository's own checks, which run after the gate: dev/check.sh has them.
# usage: check.sh      ends with 1 where a check fails, 64 for wrong use
exec bash "$(dirname "$0")/../dev/check.sh" "$@"
