txob 2
name "hand.cc"
name "int()"
name "main()"
source 1
func 2 1 0 1 0 16
plain
push 65
out
drop
push 0
ret 1
line 0 1
end
