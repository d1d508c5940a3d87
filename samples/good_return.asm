txob 1
name "int()"
name "main()"
func 1 0 0 1 0 16
plain
push 0
ret 1
end
