head -c 16777216 /dev/zero >"$room/big.o"
