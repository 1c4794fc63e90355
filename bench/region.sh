#!/usr/bin/env bash
# Places and boxes asked of a border of 4,096 positions, by the proved code and by plain Rust: places and boxes of the
# whole border, and boxes of one strip of it.
exec "$(dirname "$0")/compare.sh" region contains 10000 meets 10000 meets_by_strip 500000
