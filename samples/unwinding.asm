txob 2
name "inner()"
name "int()"
name "long"
name "main()"
name "outer()"
name "unwinding.cc"
name "void()"
source 6
func 0 6 0 1 0 16
plain
xnew 2
push 7
xput 0 8
throw
push 105
out
drop
resume
row 0 4 4 0 0 0
line 0 1
func 3 1 0 1 0 16
plain
call 4 0
push 0
ret 1
xget 0 8
push 48
bin 0 8
out
drop
xdone
jump 1
row 0 1 3 1 2 0
line 0 3
func 4 6 0 1 0 16
plain
call 0 0
ret 0
push 111
out
drop
resume
row 0 2 2 0 0 0
line 0 2
end
