txob 2
name "int()"
name "main()"
name "null.cc"
source 3
func 1 0 0 1 0 16
plain
push 0
load 8
drop
push 0
ret 1
line 0 1
end
