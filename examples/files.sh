#!/bin/sh
# The files of the checkout that git neither knows nor ignores, one a line; nothing where there is no git.
cd "$(dirname "$0")/.." && git ls-files --others --exclude-standard 2> /dev/null
exit 0
