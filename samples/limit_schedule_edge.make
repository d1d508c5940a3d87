yes 0 | head -c 16777216 >"$room/schedule"
