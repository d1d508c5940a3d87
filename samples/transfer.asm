txob 2
name "from"
name "int()"
name "long"
name "main()"
name "to"
name "transfer.cc"
name "void(long)"
name "w(long)"
source 6
global 0 2 0 1 8
cell 0 8 0 8 0
global 4 2 0 1 8
func 3 1 0 1 0 16
plain
func 7
push 0
spawn
func 7
push 0
spawn
join
join
global 0
load 8
push 48
bin 0 8
out
drop
global 4
load 8
push 48
bin 0 8
out
drop
push 10
out
drop
push 0
ret 1
line 0 3
line 8 4
func 7 6 0 1 0 16
plain
drop
push 4
begin 0
global 0
dup
tload 8
push 1
bin 1 8
tstore 8
global 4
dup
tload 8
push 1
bin 0 8
tstore 8
end
push 1
bin 1 8
dup
jzero 21
jump 2
drop
ret 0
resume
row 3 16 23 3 0 1
line 0 2
end
