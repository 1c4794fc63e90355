#!/usr/bin/env bash
# 200,000 sine enclosures by the proved code and by plain Rust.
exec "$(dirname "$0")/compare.sh" series series 200000
