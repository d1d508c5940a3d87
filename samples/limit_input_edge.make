head -c 1048576 /dev/zero >"$room/input"
