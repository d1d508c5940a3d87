txob 2
name "count.cc"
name "int()"
name "main()"
source 1
func 2 1 0 1 0 16
plain
push 49
dup
out
drop
push 1
bin 0 6
dup
push 54
bin 14 6
jzero 1
drop
push 10
out
drop
push 0
ret 1
line 0 2
line 10 3
line 13 4
end
