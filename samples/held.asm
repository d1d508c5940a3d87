txob 2
name "held.cc"
name "int()"
name "long"
name "main()"
name "p(long)"
name "r"
name "t(long)"
name "void(long)"
name "x"
source 1
global 5 2 0 1 8
cell 0 8 0 5 0
global 8 2 0 1 8
cell 0 8 0 0 0
func 3 1 0 1 0 16
plain
func 6
push 0
spawn
func 4
push 0
spawn
join
join
global 5
load 8
push 48
bin 0 8
out
drop
push 10
out
drop
push 0
ret 1
line 0 4
func 4 7 0 1 0 16
plain
drop
push 100
dup
global 8
swap
store 8
push 1
bin 1 8
dup
jzero 11
jump 2
drop
ret 0
line 0 3
func 6 7 0 1 0 16
plain
drop
begin 0
global 5
global 8
tload 8
push 1000
push 1
bin 1 8
dup
jzero 11
jump 6
drop
global 8
tload 8
swap
bin 1 8
tstore 8
end
ret 0
resume
row 2 18 19 3 0 0
line 0 2
end
