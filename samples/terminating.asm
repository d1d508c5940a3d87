txob 2
name "inner()"
name "int()"
name "long"
name "main()"
name "terminating.cc"
name "void()"
source 5
func 0 5 0 9 0 16
plain
xnew 2
push 7
xput 0 8
throw
push 105
out
drop
resume
row 0 4 4 0 0 0
line 0 1
func 3 1 0 1 0 16
plain
call 0 0
push 0
ret 1
xdone
jump 1
row 0 1 3 2 0 0
line 0 2
end
