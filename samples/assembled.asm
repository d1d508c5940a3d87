txob 2
name "int()"
name "main()"
name "write_a.cc"
source 3
func 1 0 0 1 0 16
plain
push 65
out
drop
push 0
ret 1
line 0 1
line 3 2
end
