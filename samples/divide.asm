txob 2
name "divide.cc"
name "int()"
name "main()"
source 1
func 2 1 0 1 0 16
plain
push 1
push 0
bin 3 6
drop
push 0
ret 1
line 0 1
end
