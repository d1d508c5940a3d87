txob 2
name "global_count.cc"
name "int()"
name "long"
name "main()"
name "x"
source 1
global 4 2 0 1 8
cell 0 8 0 0 0
func 3 1 0 1 0 16
plain
global 4
dup
load 8
push 1
bin 0 8
store 8
jump 0
line 0 1
end
