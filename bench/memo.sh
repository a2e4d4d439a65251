#!/bin/sh
# Prints how many probes and how many fills a second the proved build of the memo makes, at 64, 512 and 4,096 entries.
# Each probe is a hit on some entry, chosen by a generator of numbers; each fill is of a key that is not held, and drops
# the last entry. The last line of each three is with a share of a sixteenth of the entries, which those of a second
# caller fill at the end of the list, so that each fill goes by them. Run by hand, with rt in the path.
set -eu
bench=$(cd "$(dirname "$0")" && pwd)
sh "$bench/proved.sh" memo_program memo_core plain_text anyhow
