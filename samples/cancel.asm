txob 2
name "cancel.cc"
name "int()"
name "long"
name "main()"
name "std::tx_exception<long>"
name "x"
source 1
global 5 2 0 1 8
cell 0 8 0 53 0
func 3 1 0 1 0 16
plain
begin 2
global 5
push 57
tstore 8
xnew 4
push 7
xput 0 8
throw
resume
xget 0 8
push 48
bin 0 8
out
drop
xdone
global 5
load 8
out
drop
push 10
out
drop
push 0
ret 1
row 1 8 8 5 0 0
row 8 9 9 2 0 0
line 0 3
line 9 4
end
