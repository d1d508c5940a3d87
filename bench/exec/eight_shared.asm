txob 2
name "eight_shared.cc"
name "g"
name "int()"
name "long"
name "main()"
name "void(long)"
name "w(long)"
source 1
global 1 3 0 1 8
cell 0 8 0 0 0
func 4 2 0 1 0 16
plain
func 6
push 0
spawn
drop
func 6
push 0
spawn
drop
func 6
push 0
spawn
drop
func 6
push 0
spawn
drop
func 6
push 0
spawn
drop
func 6
push 0
spawn
drop
func 6
push 0
spawn
drop
begin 0
global 1
dup
tload 8
push 1
bin 0 8
tstore 8
end
jump 28
resume
row 29 36 37 3 0 0
line 0 1
func 6 5 0 1 0 16
plain
drop
begin 0
global 1
dup
tload 8
push 1
bin 0 8
tstore 8
end
jump 1
resume
row 2 9 10 3 0 0
line 0 1
end
