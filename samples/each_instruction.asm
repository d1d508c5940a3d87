txob 2
name "\x00\x0a\x1f"
name " !\x22#[\x5c]~\x7f\x80\xff"
name "S"
name "a.cc"
name "f()"
name "g"
name "int"
source 4
class 0 8 4 3 4294967295 1
member 5 0 6
member 1 4 6
slot 0
slot 5
class 2 16 8 0 0 0
global 1 6 0 0 0
global 5 6 0 1 16
cell 0 4 0 7 0
cell 8 8 2 0 5
func 4 6 2 15 1 16
plain
push 18446744073709551615
dup
drop
swap
frame 4294967295
global 5
func 4
class 0
load 4
store 4
tload 4
tstore 4
vload 4
vstore 4
bin 0 4
neg 4
conv 4 6
jump 3
jzero 2
call 4 0
tcall 4 1
calli 6 0
tcalli 6 255
slot 0 1
ret 1
begin 2
end
bsync
esync
out
inp
spawn
join
abort
xnew 6
xput 0 4
throw
rethrow
xget 0 4
xdone
resume
over
row 0 4 7 1 6 0
row 0 2 2 0 4294967295 3
line 0 1
line 5 2
safe
end
end
