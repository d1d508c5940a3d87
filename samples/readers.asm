txob 2
name "a"
name "b"
name "int()"
name "long"
name "main()"
name "p(long)"
name "q(long)"
name "readers.cc"
name "void(long)"
name "x"
source 8
global 0 3 0 1 8
cell 0 8 0 0 0
global 1 3 0 1 8
cell 0 8 0 0 0
global 9 3 0 1 8
cell 0 8 0 3 0
func 4 2 0 1 0 16
plain
func 5
push 0
spawn
func 6
push 0
spawn
join
join
global 0
load 8
global 1
load 8
bin 0 8
push 48
bin 0 8
out
drop
push 10
out
drop
push 0
ret 1
line 0 4
func 5 8 0 1 0 16
plain
drop
begin 0
global 0
global 9
tload 8
tstore 8
push 1000
push 1
bin 1 8
dup
jzero 12
jump 7
drop
end
ret 0
resume
row 2 14 15 3 0 0
line 0 2
func 6 8 0 1 0 16
plain
drop
begin 0
global 1
global 9
tload 8
tstore 8
push 1000
push 1
bin 1 8
dup
jzero 12
jump 7
drop
end
ret 0
resume
row 2 14 15 3 0 0
line 0 3
end
