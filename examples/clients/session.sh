#!/usr/bin/env bash
# A session from a shell: edits of a document, each answered before the next, and what is wrong at the end. Needs jq.
#
#     session.sh DATA MODULE.. < edits
set -euo pipefail
coproc yanglive session "$@"
requests=${COPROC[1]} answers=${COPROC[0]}

# The answer to a line, in REPLY.
ask() {
    printf '%s\n' "$1" >&"$requests"
    read -r REPLY <&"$answers"
}

while read -r line; do
    ask "$line"
    jq -r --arg line "$line" 'if .refused then "\(.refused): \($line)" else "\(.before) -> \(.after): \($line)" end' <<< "$REPLY"
done
ask faults
jq -r '.faults[] | "\(."yanglive:path"): \(."error-message")"' <<< "$REPLY"
