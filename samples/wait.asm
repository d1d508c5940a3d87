txob 2
name "int()"
name "long"
name "main()"
name "turn"
name "void(long)"
name "w(long)"
name "wait.cc"
source 7
global 3 1 0 1 8
cell 0 8 0 48 0
func 2 0 0 1 0 16
plain
func 5
push 0
spawn
bsync
global 3
push 55
store 8
global 3
load 8
out
drop
esync
join
global 3
load 8
out
drop
push 10
out
drop
push 0
ret 1
resume
row 4 12 22 6 0 1
line 0 4
line 12 5
func 5 4 0 1 0 16
plain
drop
bsync
global 3
push 56
store 8
esync
ret 0
resume
row 2 6 7 6 0 0
line 0 3
end
