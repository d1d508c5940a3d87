"$program" run --pick round:3 --record "$room/bank.record" bank.cc >"$room/stdout" 2>"$room/stderr"
