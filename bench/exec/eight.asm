txob 2
name "eight.cc"
name "g0"
name "g1"
name "g2"
name "g3"
name "g4"
name "g5"
name "g6"
name "g7"
name "int()"
name "long"
name "main()"
name "void(long)"
name "w0(long)"
name "w1(long)"
name "w2(long)"
name "w3(long)"
name "w4(long)"
name "w5(long)"
name "w6(long)"
source 1
global 1 10 0 1 8
cell 0 8 0 0 0
global 2 10 0 1 8
cell 0 8 0 0 0
global 3 10 0 1 8
cell 0 8 0 0 0
global 4 10 0 1 8
cell 0 8 0 0 0
global 5 10 0 1 8
cell 0 8 0 0 0
global 6 10 0 1 8
cell 0 8 0 0 0
global 7 10 0 1 8
cell 0 8 0 0 0
global 8 10 0 1 8
cell 0 8 0 0 0
func 11 9 0 1 0 16
plain
func 13
push 0
spawn
drop
func 14
push 0
spawn
drop
func 15
push 0
spawn
drop
func 16
push 0
spawn
drop
func 17
push 0
spawn
drop
func 18
push 0
spawn
drop
func 19
push 0
spawn
drop
begin 0
global 8
dup
tload 8
push 1
bin 0 8
tstore 8
end
jump 28
resume
row 29 36 37 3 0 0
line 0 1
func 13 12 0 1 0 16
plain
drop
begin 0
global 1
dup
tload 8
push 1
bin 0 8
tstore 8
end
jump 1
resume
row 2 9 10 3 0 0
line 0 1
func 14 12 0 1 0 16
plain
drop
begin 0
global 2
dup
tload 8
push 1
bin 0 8
tstore 8
end
jump 1
resume
row 2 9 10 3 0 0
line 0 1
func 15 12 0 1 0 16
plain
drop
begin 0
global 3
dup
tload 8
push 1
bin 0 8
tstore 8
end
jump 1
resume
row 2 9 10 3 0 0
line 0 1
func 16 12 0 1 0 16
plain
drop
begin 0
global 4
dup
tload 8
push 1
bin 0 8
tstore 8
end
jump 1
resume
row 2 9 10 3 0 0
line 0 1
func 17 12 0 1 0 16
plain
drop
begin 0
global 5
dup
tload 8
push 1
bin 0 8
tstore 8
end
jump 1
resume
row 2 9 10 3 0 0
line 0 1
func 18 12 0 1 0 16
plain
drop
begin 0
global 6
dup
tload 8
push 1
bin 0 8
tstore 8
end
jump 1
resume
row 2 9 10 3 0 0
line 0 1
func 19 12 0 1 0 16
plain
drop
begin 0
global 7
dup
tload 8
push 1
bin 0 8
tstore 8
end
jump 1
resume
row 2 9 10 3 0 0
line 0 1
end
