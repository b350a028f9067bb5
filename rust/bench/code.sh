#!/bin/sh
# How many bytes of code libcontroller.a has and which of its functions are the largest, as a table in Markdown. The archive is looked for in
# the directory that TIMESYNC_LIB_DIR names, or else in ../../target/staticlib. Needs size and nm.
archive=${TIMESYNC_LIB_DIR:-$(dirname "$0")/../../target/staticlib}/libcontroller.a
if [ ! -f "$archive" ]; then
    echo "there is no $archive" >&2
    exit 1
fi
echo "### Code"
echo
echo "| libcontroller.a | bytes |"
echo "|---|--:|"
size -A "$archive" | awk '
    $1 ~ /^\.text/ { text += $2 }
    $1 ~ /^\.rodata/ { constants += $2 }
    END { printf "| code | %d |\n| constants | %d |\n", text, constants }'
nm --print-size --size-sort --reverse-sort --radix=d "$archive" | awk '
    $3 ~ /^[tT]$/ && shown < 12 { printf "| `%s` | %d |\n", $4, $2; shown++ }'
