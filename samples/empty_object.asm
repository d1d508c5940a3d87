txob 2
name "e.cc"
source 1
end
