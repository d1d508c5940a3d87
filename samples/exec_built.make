"$program" build --to "$room/built.o" lost_update_mended.cc
