txob 1
name "int()"
name "main()"
end
