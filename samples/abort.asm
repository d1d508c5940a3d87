txob 2
name "abort.cc"
name "int()"
name "main()"
source 1
func 2 1 0 1 0 16
plain
abort
push 0
ret 1
line 0 1
end
