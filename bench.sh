#!/usr/bin/env bash
# Proves and builds the bench, and runs it. What the check says is shown only where it fails.
set -eu
cd "$(dirname "$0")/crates/bench"
said=$(mktemp)
trap 'rm -f "$said"' EXIT
rt run 2>"$said" || { cat "$said" >&2; exit 1; }
