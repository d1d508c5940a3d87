txob 2
name "deep.cc"
name "f()"
name "int()"
name "main()"
name "void()"
source 1
func 1 4 0 1 0 16
plain
call 1 0
ret 0
line 0 2
func 3 2 0 1 0 16
plain
call 1 0
push 0
ret 1
line 0 1
end
