yes 0 | head -c 16777217 >"$room/schedule"
