txob 2
name "a"
name "b"
name "crossed.cc"
name "int()"
name "long"
name "main()"
name "p(long)"
name "q(long)"
name "void(long)"
source 3
global 0 4 0 1 8
cell 0 8 0 0 0
global 1 4 0 1 8
cell 0 8 0 0 0
func 5 3 0 1 0 16
plain
func 6
push 0
spawn
func 7
push 0
spawn
join
join
global 0
load 8
global 1
load 8
bin 0 8
push 48
bin 0 8
out
drop
push 10
out
drop
push 0
ret 1
line 0 4
func 6 8 0 1 0 16
plain
drop
begin 0
global 0
dup
tload 8
push 1
bin 0 8
tstore 8
push 1000
push 1
bin 1 8
dup
jzero 14
jump 9
drop
global 1
dup
tload 8
push 1
bin 0 8
tstore 8
end
ret 0
resume
row 2 22 23 3 0 0
line 0 2
func 7 8 0 1 0 16
plain
drop
begin 0
global 1
dup
tload 8
push 1
bin 0 8
tstore 8
push 1000
push 1
bin 1 8
dup
jzero 14
jump 9
drop
global 0
dup
tload 8
push 1
bin 0 8
tstore 8
end
ret 0
resume
row 2 22 23 3 0 0
line 0 3
end
