# make         this list
# make check CRATE=name  one turn of the edit loop: what of this crate is not proved
# make test    every test, from nothing; the last line counts them
# make demo    the demonstration, and a kernel that lives in tables of the library, on an emulated machine
# make lib     target/tablepath: the archive for x86-64, the header, a pkg-config file, the licences
# make install PREFIX=/usr/local  puts that under PREFIX
# make kernel  the kernel alone; its last line counts its checks
# make picture a small example's tables as text, and as target/picture.svg
# make bench   the library's speed beside two baselines, and its instructions counted; with what is proved already
# make ground  the words, the entries and the walk alone, with their wrong programs: what all the rest stands on
# make wrong   the wrong programs alone, each of which the prover must refuse; with what is proved already
# make walks   the compiled library against the manual's walk alone, with what is proved already
# make believed what a reader must believe, counted and in an order in which it can be read
# make clean   removes all that was made
.PHONY: help check test demo lib install kernel picture bench ground wrong walks believed clean

PREFIX = /usr/local

help:
	@sed -n 's/^# //p' Makefile

check:
	@tools/check $(CRATE)

test:
	@tools/test

demo:
	@tools/run demo
	@tools/run tour
	@tools/lib
	@tools/kernel

lib:
	@tools/lib

install: lib
	@tools/install $(PREFIX)

kernel: lib
	@tools/kernel

picture:
	@tools/picture

bench:
	@tools/bench

ground:
	@tools/setup
	@tools/proved word entry walk say tour vectors
	@tools/wrong word entry walk

wrong:
	@tools/setup
	@tools/wrong

walks:
	@tools/test archive rust walks

believed:
	@tools/believed

clean:
	rm -rf target rust/target crates/*/out
