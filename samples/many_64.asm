txob 2
name "int()"
name "main()"
name "many_64.cc"
name "void(long)"
name "w(long)"
source 3
func 1 0 0 1 0 16
plain
push 64
func 4
push 0
spawn
drop
push 1
bin 1 8
dup
jzero 10
jump 1
drop
push 63
dup
join
push 1
bin 1 8
dup
jzero 19
jump 12
drop
push 0
ret 1
line 0 2
line 12 3
func 4 3 0 1 0 16
plain
drop
ret 0
line 0 1
end
