txob 2
name "counting.cc"
name "int()"
name "main()"
source 1
func 2 1 0 1 0 16
plain
push 0
push 1
bin 0 9
jump 1
line 0 1
end
