#!/bin/sh
# Turns the help text of stops-text on standard input into its manual page: manual.sh VERSION.
printf '.TH STOPS-TEXT 1 "" "stops %s" ""\n' "$1"
sed 's/\\/\\e/g; s/-/\\-/g' | awk '
    /^[A-Z]/ { if (body) print ".fi"; print ".SH " $0; body = 0; name = ($0 == "NAME"); next }
    name { sub(/^ +/, ""); if (length) { sub(/ \\- /, " \\- "); print }; next }
    { sub(/^    /, "") }
    !body { if (!length) next; print ".nf"; body = 1 }
    /^[.'"'"']/ { $0 = "\\&" $0 }
    { print }
    END { if (body) print ".fi" }'
